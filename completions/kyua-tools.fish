# fish completion for kyua-tools(1): the commands that `kyua-tools` lists, and files.

function __kyua_tools_commands
    set -l program (commandline -opc)[1]
    command $program 2> /dev/null | string match -r '^  \S.*' | string replace -r '^  (\S+) +' '$1\t'
end

complete -c kyua-tools -n 'test (count (commandline -opc)) = 1' -f -a '(__kyua_tools_commands)'
complete -c kyua-tools -n 'test (count (commandline -opc)) = 1' -s h -l help -d 'List the commands'
