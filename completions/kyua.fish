# fish completion for kyua(1): commands, options, variables, kinds of results, and the programs and cases that `kyua list` prints. Each TAB
# after a command over test cases starts all ATF programs of the tree for their lists.

# The path that a word stands for, which may begin with ~ or $HOME.
function __kyua_plain
    string replace -r '^(~|\$HOME|\$\{HOME\}|\{\$HOME\})/' "$HOME/" -- $argv
end

# The Kyuafile that the command line names, or the one of the working directory.
function __kyua_kyuafile
    set -l words (commandline -opc)
    for place in (seq (count $words))
        switch $words[$place]
            case -k --kyuafile
                test $place -lt (count $words); or break
                __kyua_plain $words[(math $place + 1)]
                return
            case '--kyuafile=*'
                __kyua_plain (string replace -- --kyuafile= '' $words[$place])
                return
        end
    end
    echo Kyuafile
end

function __kyua_cases
    set -l program (__kyua_plain (commandline -opc)[1])
    command $program list -k (__kyua_kyuafile) 2> /dev/null | string match -v -r '^kyua: [EW]: '
end

# The cases, their programs and their directories.
function __kyua_filters
    set -l names (__kyua_cases)
    printf '%s\n' $names
    set names (string replace -r ':.*' '' -- $names | sort -u)
    while count $names > /dev/null
        printf '%s\n' $names
        set names (string replace -r -f '/[^/]*$' '' -- $names | sort -u)
    end
end

# The kinds of results that the list doesn't have yet.
function __kyua_kinds
    set -l given (string split , -- (string replace -- --results-filter= '' (commandline -ct)))
    set -e given[-1]
    for kind in passed skipped xfail broken failed
        contains -- $kind $given; or string join , -- $given $kind
    end
end

set -l commands list test debug report report-junit
set -l none "not __fish_seen_subcommand_from $commands"
set -l cases "__fish_seen_subcommand_from list test debug"
set -l results "__fish_seen_subcommand_from test report report-junit"
set -l reports "__fish_seen_subcommand_from report report-junit"

complete -c kyua -f
complete -c kyua -s h -l help -d 'Print help'
complete -c kyua -n $none -s c -l config -rF -d 'The configuration file to read'
complete -c kyua -n $none -s v -l variable -x -a 'architecture= parallelism= platform= test_suites.' -d 'Set a variable, as NAME=VALUE'
complete -c kyua -n $none -a list -d 'List test cases'
complete -c kyua -n $none -a test -d 'Run test cases and record their results'
complete -c kyua -n $none -a debug -d 'Run one test case and show what it writes'
complete -c kyua -n $none -a report -d 'Show a recorded run as text'
complete -c kyua -n $none -a report-junit -d 'Show a recorded run as a JUnit report'
complete -c kyua -n $cases -s k -l kyuafile -rF -d 'The Kyuafile to read'
complete -c kyua -n $cases -l work -x -a '(__fish_complete_directories)' -d 'Where to make work directories'
complete -c kyua -n '__fish_seen_subcommand_from list test' -a '(__kyua_filters)'
complete -c kyua -n '__fish_seen_subcommand_from debug' -a '(__kyua_cases)'
complete -c kyua -n $results -s r -l results-file -rF -d 'The results file'
complete -c kyua -n $reports -l run -x -d 'The number of the run'
complete -c kyua -n '__fish_seen_subcommand_from report' -l verbose -d 'Show the properties of each case'
complete -c kyua -n '__fish_seen_subcommand_from report' -l results-filter -x -a '(__kyua_kinds)' -d 'The results to show'
