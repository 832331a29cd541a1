-- Drives compile.lua and verify.lua without a person: what they ask is answered from a list, and what they tell is written to a file. Run by
-- golly/test/run, which sets what is read here from the environment.

local g = golly()
local source = debug.getinfo(1, "S").source
local here = source:gsub("^@", ""):match("^(.*/)[^/]*$")
local scripts = here .. "../"
local log = io.open(os.getenv("LIFE_TEST_LOG"), "w")

LIFE_TOP = os.getenv("LIFE_TEST_TOP")
LIFE_SHARED = dofile(scripts .. "life.lua")

local book
LIFE_SHARED.ask = {
    book = function(folder, name)
        log:write("asked for a book, first ", name, "\n")
        return book
    end,
    tell = function(text) log:write("told: ", text, "\n") end,
    warn = function(text) log:write("warned: ", text, "\n") end,
}

-- A layer of its own with a target.
local function draw(path, name)
    g.addlayer()
    if path ~= "" then g.open(path) end
    g.setrule("B3/S23")
    g.setname(name)
end

local function box_text(box)
    return #box == 0 and "none" or table.concat(box, " ")
end

-- What a layer shows, as a line.
local function show_layer()
    log:write(string.format("layer %s, generation %s, %s, %s cells in %s, selected %s\n", g.getname(), g.getgen(), g.getalgo(), g.getpop(), box_text(g.getrect()), box_text(g.getselrect())))
end

local function compile()
    dofile(scripts .. "compile.lua")
    show_layer()
end

local function verify()
    dofile(scripts .. "verify.lua")
    show_layer()
end

for line in io.lines(os.getenv("LIFE_TEST_STEPS")) do
    local word, rest = line:match("^(%S+)%s*(.*)$")
    if word and word ~= "#" then log:write("> ", line, "\n") end
    if word == "draw" then
        local name, path = rest:match("^(%S+)%s*(.*)$")
        draw(path ~= "" and scripts .. "../" .. path or "", name)
    elseif word == "book" then
        book = scripts .. "../" .. rest
    elseif word == "rule" then
        g.setrule(rest)
    elseif word == "cells" then
        local cells = {}
        for number in rest:gmatch("%-?%d+") do cells[#cells + 1] = tonumber(number) end
        g.putcells(cells)
    elseif word == "select" then
        local x, y, width, height = rest:match("(%-?%d+) (%-?%d+) (%d+) (%d+)")
        g.select({ tonumber(x), tonumber(y), tonumber(width), tonumber(height) })
    elseif word == "compile" then
        compile()
    elseif word == "verify" then
        verify()
    elseif word == "launcher" then
        LIFE_TOP = here .. rest .. "/"
    elseif word == "close" then
        g.dellayer()
    elseif word == "save" then
        g.save(os.getenv("LIFE_TEST_SAVED"), "rle")
    end
end
log:close()
os.exit(0)
