-- Called by literal with the working directory, a Kyuafile and the name of the files to write.
local top, root, target = arg[1], arg[2], arg[3]
local header = '-- Written by literal.'
local status, outputs, order, open = 0, {}, {}, {}

local function say(path, line, text) io.stderr:write(path, ':', line, ': ', text, '\n') end
-- The line of the Kyuafile that called a function of this file.
local function line_of(path)
    for level = 2, 200 do
        local info = debug.getinfo(level, 'Sl')
        if not info then return 0 end
        if info.source == '@' .. path then return info.currentline end
    end
    return 0
end
-- Ends the program, with the line that can't be converted.
local function refuse(path, line, text)
    say(path, line, text)
    os.exit(2)
end

-- Names what is not literal in a text, by its tokens.
local words = {
    ['for'] = 'a loop', ['while'] = 'a loop', ['repeat'] = 'a loop', ['if'] = 'a condition', ['local'] = 'a variable', ['function'] = 'a function',
    ['return'] = 'a return', ['nil'] = 'no value', current_kyuafile = 'a call', fs = 'a call', ['and'] = 'an operator', ['or'] = 'an operator',
    ['not'] = 'an operator',
}
local function name_causes(path, text)
    local at, line, depth, before, named = 1, 1, 0, '', {}
    local function name(what, cause)
        local found = what .. ': ' .. cause .. ', written out'
        if not named[line .. found] then say(path, line, found) end
        named[line .. found] = true
    end
    while at <= #text do
        local token = text:match('^%s+', at) or text:match('^%-%-%[(=*)%[.-%]%1%]', at) and text:match('^%-%-%[=*%[.-%]=*%]', at)
            or text:match('^%-%-[^\n]*', at)
        local blank = token ~= nil
        if not token then
            token = text:match('^[%a_][%w_]*', at) or text:match('^%.?%d[%w.]*', at) or text:match('^%.%.+', at) or text:match('^[=~<>]=', at)
            if not token and text:match('^%[=*%[', at) then
                token = text:match('^%[%[.-%]%]', at) or text:match('^%[=+%[.-%]=+%]', at) or text:sub(at)
                name('[[..]]', 'a long string')
            elseif not token and text:match('^["\']', at) then
                local stop = at + 1
                while stop < #text and text:sub(stop, stop) ~= text:sub(at, at) do stop = stop + (text:sub(stop, stop) == '\\' and 2 or 1) end
                token = text:sub(at, stop)
                if before:match('_test_program$') then name(before .. token, 'a call without braces') end
            elseif not token then
                token = text:sub(at, at)
            end
            if words[token] and not (depth > 0 and text:match('^%s*=[^=]', at + #token)) then
                name(token == 'fs' and text:match('^fs%.[%w_]+', at) or token, words[token])
            elseif token == '..' then
                name('..', 'strings that are joined')
            elseif token:match('^%.?%d') and not token:match('^%d+$') then
                name(token, 'a number that is not plain decimal')
            elseif token:match('^[+*/%%^#<>-]$') or token:match('^[=~<>]=$') then
                name(token, 'an operator')
            elseif token == '{' then
                depth = depth + 1
                if depth > 1 then name('{', 'a table in a table') end
            elseif token == '}' then
                depth = depth - 1
            elseif token == '(' and before:match('_test_program$') and not text:match('^%(%s*{', at) then
                name(before .. '(', 'a call without braces')
            end
            before = token
        end
        if not (blank and token == '') then
            at = at + #token
            for _ in token:gmatch('\n') do line = line + 1 end
        end
    end
end

local escapes = { ['\\'] = '\\\\', ["'"] = "\\'", ['\n'] = '\\n', ['\t'] = '\\t' }
local function quote(text) return "'" .. text:gsub("[\\'\n\t]", escapes) .. "'" end
-- The properties of later versions, and what their absence means.
local later = {
    execenv = 'the test runs without a jail', execenv_jail_params = 'the test runs without a jail',
    required_kmods = 'the test runs whether or not the module is loaded', has_cleanup = 'the list of an ATF program declares cleanups',
}
local known = {}
for name in ([[allowed_architectures allowed_platforms description is_exclusive required_configs required_disk_space required_files
    required_memory required_programs required_user test_suite timeout]]):gmatch('%S+') do known[name] = true end
-- A value as a literal.
local function literal(path, line, name, value)
    local kind = math.type and math.type(value) or type(value)
    if type(value) == 'string' then return quote(value) end
    if type(value) == 'boolean' then return tostring(value) end
    if type(value) == 'number' and kind ~= 'float' and value >= 0 then return string.format('%d', value) end
    if type(value) == 'number' and value >= 0 and value == math.floor(value) then return string.format('%.0f', value) end
    if type(value) == 'number' then refuse(path, line, name .. '=' .. tostring(value) .. ': a property is no negative number and has no fraction') end
    if type(value) ~= 'table' then refuse(path, line, name .. ' is a ' .. type(value) .. ', which is no value of a property') end
    for key, word in pairs(value) do
        if math.type and math.type(key) ~= 'integer' or type(key) ~= 'number' then
            refuse(path, line, name .. '={' .. tostring(key) .. '=..}: a table with names is no value of a property: write each pair as a property')
        end
        if type(word) ~= 'string' or word:match('%s') or word == '' then
            refuse(path, line, name .. '={..}: the words of a property are separated by white space, so none may have any')
        end
    end
    return quote(table.concat(value, ' '))
end

local convert
-- The functions that a Kyuafile calls, which add statements to a list.
local function interface(path, statements)
    local directory = path:match('^(.*/)[^/]*$') or ''
    local absolute = path:sub(1, 1) == '/' and path or top .. '/' .. path
    local function add(text) statements[#statements + 1] = text end
    -- One argument of this type.
    local function take(call, kind, count, value)
        if count ~= 1 then refuse(path, line_of(path), call .. ' has ' .. count .. ' arguments: give it one') end
        if type(value) ~= kind then
            refuse(path, line_of(path), call .. ' needs ' .. (kind == 'table' and "a table in braces, such as " .. call .. "{name='a_test'}" or 'a ' .. kind))
        end
        return value
    end
    local function program(call)
        return function(...)
            local properties, line = take(call, 'table', select('#', ...), (...)), line_of(path)
            if type(properties.name) ~= 'string' then refuse(path, line, call .. ' has no name') end
            if properties.name:match('/') then
                refuse(path, line, quote(properties.name) .. ': a program is in the directory of its Kyuafile: write one there and include it')
            end
            local parts, names = { 'name=' .. quote(properties.name) }, {}
            for name in pairs(properties) do
                if type(name) ~= 'string' then refuse(path, line, call .. '{..} has a value without a name: write NAME=VALUE') end
                if name ~= 'name' then names[#names + 1] = name end
            end
            table.sort(names)
            for _, name in ipairs(names) do
                if later[name] then
                    say(path, line, name .. ' of ' .. properties.name .. ' is left out: ' .. later[name])
                    status = 1
                else
                    local value = literal(path, line, name, properties[name])
                    if not known[name] and not name:match('^custom%.') then
                        refuse(path, line, name .. ' of ' .. properties.name .. ' is not a property: kyuafile(5) has a table of them')
                    end
                    local key = name:match('^[%a_][%w_]*$') and name or '[' .. quote(name) .. ']'
                    parts[#parts + 1] = key .. '=' .. value
                end
            end
            add(call .. '{' .. table.concat(parts, ', ') .. '}')
        end
    end
    local function at(name) return name:sub(1, 1) == '/' and name or absolute:match('^(.*/)') .. name end
    local function exists(name)
        local file = io.open(at(name))
        if file then file:close() end
        return file ~= nil
    end
    return {
        -- syntax("kyuafile", 1) is that of earlier versions.
        syntax = function(name, version)
            if name ~= 2 and not (name == 'kyuafile' and (version == 1 or version == 2)) and name ~= 1 then
                refuse(path, line_of(path), 'syntax(' .. tostring(name) .. ') is not known')
            end
        end,
        test_suite = function(...) add('test_suite(' .. quote(take('test_suite', 'string', select('#', ...), (...))) .. ')') end,
        include = function(...)
            local name, line = take('include', 'string', select('#', ...), (...)):gsub('//+', '/'):gsub('^%./', ''):gsub('/%./', '/'), line_of(path)
            if name:sub(1, 1) == '/' or ('/' .. name .. '/'):find('/../', 1, true) then
                refuse(path, line, 'include(' .. quote(name) .. '): a path leads down from the directory of the file')
            end
            if not exists(name) then refuse(path, line, 'include(' .. quote(name) .. '): there is no such file') end
            if open[directory .. name] then refuse(path, line, 'include(' .. quote(name) .. '): the file is being read already') end
            convert(directory .. name)
            add('include(' .. quote((name:match('^(.*/)[^/]*$') or '') .. target) .. ')')
        end,
        atf_test_program = program('atf_test_program'),
        plain_test_program = program('plain_test_program'),
        tap_test_program = program('tap_test_program'),
        current_kyuafile = function() return absolute end,
        fs = {
            exists = exists,
            files = function(name)
                local list, i, names = io.popen("ls -a '" .. at(name):gsub("'", "'\\''") .. "'"), 0, {}
                for file in list:lines() do names[#names + 1] = file end
                list:close()
                return function() i = i + 1; return names[i] end
            end,
            basename = function(name) return name:match('([^/]+)/*$') or '/' end,
            dirname = function(name) return name:match('^(.+)/[^/]*$') or name:match('^/') or '.' end,
            join = function(a, b) return a .. '/' .. b end,
            is_absolute = function(name) return name:sub(1, 1) == '/' end,
        },
    }
end

-- Converts a file and those that it includes.
function convert(path)
    local file, message = io.open(path, 'rb')
    local text = file and file:read('*a')
    if not text then refuse(path, 0, message or 'this is not a file') end
    file:close()
    text = text:gsub('^\239\187\191', '')
    local chunk
    local statements = {}
    chunk, message = load(text, '@' .. path, 't', setmetatable(interface(path, statements), { __index = _G }))
    if not chunk then
        io.stderr:write(message, '\n')
        os.exit(2)
    end
    name_causes(path, (text:gsub('^#[^\n]*', '')))
    open[path] = true
    local done
    done, message = pcall(chunk)
    open[path] = nil
    if not done then
        io.stderr:write(tostring(message), '\n')
        os.exit(2)
    end
    local name = (path:match('^(.*/)[^/]*$') or '') .. target
    if not outputs[name] then order[#order + 1] = name end
    outputs[name] = header .. '\nsyntax(2)\n' .. table.concat(statements, '\n') .. '\n'
    if utf8 and not utf8.len(outputs[name]) then refuse(path, 0, 'a text is not UTF-8: convert the file by iconv') end
end

convert(root)
for _, name in ipairs(order) do
    local file = io.open(name)
    if file then
        if file:read('*l') ~= header then refuse(name, 1, 'the file is there, and was not written by literal') end
        file:close()
    end
end
for _, name in ipairs(order) do
    local file, message = io.open(name, 'w')
    if not (file and file:write(outputs[name]) and file:close()) then refuse(name, 0, message or 'it can not be written') end
end
os.exit(status)
