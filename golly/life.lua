-- What the scripts of this folder share: the program is called, a pattern is written as text, and a refusal is put into words.
-- x goes right and y goes down, as in Golly and in the program.

local g = golly()
local life = {}

-- What a person is asked and told. A test puts its own functions in their place.
life.ask = {
    book = function(folder, name)
        return g.opendialog("Choose a recipe book", "Recipe books (*.book)|*.book", folder, name)
    end,
    tell = function(text) g.note(text, false) end,
    warn = function(text) g.warn(text, false) end,
}

-- The folder of the repository, with a slash at its end, from the path of a script in its folder `golly`.
function life.top(source)
    local folder = source:gsub("^@", ""):match("^(.*/)[^/]*$") or "./"
    return folder .. "../"
end

-- A word for the shell.
local function quoted(word)
    return "'" .. word:gsub("'", "'\\''") .. "'"
end

function life.read_file(path)
    local file = io.open(path, "rb")
    if not file then return nil end
    local text = file:read("a")
    file:close()
    return text
end

function life.write_file(path, text)
    local file = io.open(path, "wb")
    if not file then return false end
    file:write(text)
    file:close()
    return true
end

-- ---- cells

-- Cells as Golly gives them for two states, as a list of {x, y} in the order of rows.
function life.cells_of(array)
    local cells = {}
    for i = 1, #array - 1, 2 do
        cells[#cells + 1] = { x = array[i], y = array[i + 1] }
    end
    table.sort(cells, function(a, b)
        if a.y ~= b.y then return a.y < b.y end
        return a.x < b.x
    end)
    return cells
end

-- Items of RLE; a count of 1 is left out.
local function item(count, tag)
    if count == 0 then return "" end
    return (count == 1 and "" or tostring(count)) .. tag
end

-- The text of cells in the order of rows, at their place.
function life.text_of(cells)
    if #cells == 0 then return "x = 0, y = 0, rule = B3/S23\n!\n" end
    local left, right = cells[1].x, cells[1].x
    for _, cell in ipairs(cells) do
        left, right = math.min(left, cell.x), math.max(right, cell.x)
    end
    local top, bottom = cells[1].y, cells[#cells].y
    local items, x, y, i = {}, left, top, 1
    while i <= #cells do
        local cell = cells[i]
        if cell.y > y then
            items[#items + 1] = item(cell.y - y, "$")
            x, y = left, cell.y
        end
        local last = i
        while cells[last + 1] and cells[last + 1].y == y and cells[last + 1].x == cells[last].x + 1 do last = last + 1 end
        items[#items + 1] = item(cell.x - x, "b") .. item(last - i + 1, "o")
        x, i = cells[last].x + 1, last + 1
    end
    local head = string.format("#CXRLE Pos=%d,%d\nx = %d, y = %d, rule = B3/S23\n", left, top, right - left + 1, bottom - top + 1)
    local lines, line = {}, ""
    for _, each in ipairs(items) do
        if #line + #each > 70 then
            lines[#lines + 1] = line
            line = ""
        end
        line = line .. each
    end
    lines[#lines + 1] = line .. "!"
    return head .. table.concat(lines, "\n") .. "\n"
end

local function key(x, y)
    return x .. "," .. y
end

-- Whether two lists of cells in the order of rows are the same.
function life.same(a, b)
    if #a ~= #b then return false end
    for i, cell in ipairs(a) do
        if cell.x ~= b[i].x or cell.y ~= b[i].y then return false end
    end
    return true
end

-- The box {x, y, width, height} of the island with a cell: what is joined to it by steps of distance at most 2.
function life.island_box(cells, x, y)
    local live = {}
    for _, cell in ipairs(cells) do live[key(cell.x, cell.y)] = true end
    if not live[key(x, y)] then return { x, y, 1, 1 } end
    local todo, left, right, top, bottom = { { x = x, y = y } }, x, x, y, y
    live[key(x, y)] = nil
    while #todo > 0 do
        local cell = table.remove(todo)
        left, right = math.min(left, cell.x), math.max(right, cell.x)
        top, bottom = math.min(top, cell.y), math.max(bottom, cell.y)
        for dx = -2, 2 do
            for dy = -2, 2 do
                local near = key(cell.x + dx, cell.y + dy)
                if live[near] then
                    live[near] = nil
                    todo[#todo + 1] = { x = cell.x + dx, y = cell.y + dy }
                end
            end
        end
    end
    return { left, top, right - left + 1, bottom - top + 1 }
end

-- ---- the program

-- Runs the program with words, and shows in the status bar that it goes on. The answer's path, its status, and its line of refusal; the
-- status is nil where the program could not be run at all.
function life.run(top, words)
    local room = g.getdir("temp")
    local out, err, status = room .. "life-answer.rle", room .. "life-errors.txt", room .. "life-status.txt"
    os.remove(status)
    local line = { quoted(top .. "life") }
    for _, word in ipairs(words) do line[#line + 1] = quoted(word) end
    local command = string.format("{ %s >%s 2>%s </dev/null; echo $? >%s.new; mv %s.new %s; } &",
        table.concat(line, " "), quoted(out), quoted(err), quoted(status), quoted(status), quoted(status))
    if not os.execute(command) then return out, nil, "" end
    local begin, said = g.millisecs(), nil
    while not said do
        said = life.read_file(status)
        if not said then
            g.sleep(50)
            g.show(string.format("life %s: %.1f s", words[1], (g.millisecs() - begin) / 1000))
        end
    end
    g.show("")
    return out, tonumber(said), life.read_file(err) or ""
end

-- ---- refusals

-- What is wrong, and where: patterns of the program's line, and what each means to a person. A place is a cell; `island` asks for the
-- whole island there.
local refusals = {
    { "^no recipe %d+ (%-?%d+) (%-?%d+)", "No recipe for the island at (%s, %s): the book has no salvo that can build it here.", island = true },
    { "^no closing %d+ %-?%d+", "All islands have recipes, but the book has no turns that end the elbow where it then stands." },
    { "^stream long (%d+)", "The stream would have %s gliders, more than the program takes." },
    { "^target moves (%-?%d+) (%-?%d+)", "Not a still life: the cell (%s, %s) changes.", cell = true },
    { "^target wide (%d+)", "The target is %s cells wide or high; 2,048 is the most." },
    { "^target islands (%d+)", "The target has %s islands; 4,096 are the most." },
    { "^target (.*)", "The program does not take the target's text: %s." },
    { "^book (.*)", "The recipe book can't be read: %s." },
    { "^kind (%d+) (.*)", "The book's elbow number %s is not a still life where it has to stand: %s." },
    { "^hand moves (%-?%d+) (%-?%d+)", "The book's hand is not a still life: its cell (%s, %s) changes." },
    { "^elbows (%d+)", "The book's elbow has %s states, more than the program takes." },
    { "^read fault", "A file could not be read." },
    { "^write fault", "The answer could not be written." },
}

-- What the program's line means to a person; a cell to look at, and whether its island is meant, where there is one.
function life.refusal(status, errors)
    if status == nil or status == 126 or status == 127 then
        return "The program ./life could not be started. Is this script still in the folder golly of its repository?"
    end
    if status == 12 then return "There was not enough memory." end
    local said = errors:match("life: ([^\n]*)") or ""
    if status == 70 then
        return "There is no proved program yet: " .. said .. ".\nRun ./prove in the repository's folder once; then try again."
    end
    for _, each in ipairs(refusals) do
        local found = { said:match(each[1]) }
        if #found > 0 then
            local place = (each.cell or each.island) and { x = tonumber(found[1]), y = tonumber(found[2]) } or nil
            return string.format(each[2], table.unpack(found)), place, each.island
        end
    end
    return "The program ended with status " .. tostring(status) .. ": " .. said
end

return life
