-- Compiles what is drawn: the selection, or the whole pattern where nothing is selected, is the target. The construction comes in a new
-- layer, at its place, with HashLife on; its title says to which generation it has to run. Golly 3, its own Lua, no other library.

local g = golly()
local source = debug.getinfo(1, "S").source
local life = LIFE_SHARED or dofile(source:gsub("^@", ""):match("^(.*/)[^/]*$") .. "life.lua")
local top = LIFE_TOP or life.top(source)

-- Where the last choice of a book is kept.
local remembered = g.getdir("data") .. "life-book.txt"

-- The book that was chosen the last time, or the whole book of the examples; and its folder.
local function last_book()
    local path = (life.read_file(remembered) or ""):match("^[^\n]+") or ""
    if not life.read_file(path) then path = top .. "examples/books/hub.book" end
    return path:match("^(.*/)([^/]*)$")
end

-- The target's cells, and the selection that it is, or none.
local function target()
    local selection = g.getselrect()
    local box = #selection > 0 and selection or g.getrect()
    return life.cells_of(#box > 0 and g.getcells(box) or {}), selection
end

-- Shows a place in the target's layer, and selects what is meant there.
local function show_place(cells, place, island)
    local box = island and life.island_box(cells, place.x, place.y) or { place.x, place.y, 1, 1 }
    g.select(box)
    if not g.visrect(box) then g.setpos(tostring(place.x), tostring(place.y)) end
    g.update()
end

-- The construction in a new layer.
local function open_answer(path, name, selection)
    local text = life.read_file(path)
    local generations = text:match("#C generations (%d+)")
    local note = string.format("#C Run it to generation %s: then it is exactly the target.\n", generations)
    if #selection > 0 then
        note = note .. string.format("#C The target is the selection %d %d %d %d of the layer before.\n", table.unpack(selection))
    end
    life.write_file(path, (text:gsub("#C generations", function() return note .. "#C generations" end, 1)))
    g.addlayer()
    g.open(path)
    g.setalgo("HashLife")
    g.setname(string.format("%s: run to %s", name, generations))
    g.fit()
    g.show("The target stands in generation " .. generations .. "; verify.lua runs to it and compares.")
    return generations
end

local function main()
    if g.getrule() ~= "B3/S23" then
        life.ask.warn("The rule is " .. g.getrule() .. ". Constructions are compiled for B3/S23 alone, Conway's Life on the infinite plane.")
        return
    end
    if g.numlayers() == g.maxlayers() then
        life.ask.warn("There is no room for one more layer. Close a layer first.")
        return
    end
    local cells, selection = target()
    local folder, file = last_book()
    local book = life.ask.book(folder, file)
    if book == "" then return end
    life.write_file(remembered, book .. "\n")
    local text = g.getdir("temp") .. "life-target.rle"
    life.write_file(text, life.text_of(cells))
    local answer, status, errors = life.run(top, { "compile", book, text })
    if status == 0 then return open_answer(answer, g.getname(), selection) end
    local words, place, island = life.refusal(status, errors)
    if place then show_place(cells, place, island) end
    life.ask.warn(words)
end

return main()
