-- Runs the construction of this layer by HashLife to the generation that its text names, and says whether what is left is exactly the
-- target of the layer before it. Golly 3, its own Lua, no other library.

local g = golly()
local source = debug.getinfo(1, "S").source
local life = LIFE_SHARED or dofile(source:gsub("^@", ""):match("^(.*/)[^/]*$") .. "life.lua")

-- Runs to a generation by HashLife, in steps that are powers of two, from the greatest down, so that the way there is seen.
local function run_to(last)
    g.setalgo("HashLife")
    g.setbase(2)
    while tonumber(g.getgen()) < last do
        local left = last - tonumber(g.getgen())
        local power = 0
        while 2 ^ (power + 1) <= left do power = power + 1 end
        g.setstep(power)
        g.step()
        g.show(string.format("generation %s of %d", g.getgen(), last))
        g.update()
    end
    g.setstep(0)
end

-- The cells of the target in the layer before: all, or those of the selection that was compiled.
local function target_cells(here, selection)
    g.setlayer(here - 1)
    local box = selection or g.getrect()
    local cells = life.cells_of(#box > 0 and g.getcells(box) or {})
    g.setlayer(here)
    return cells
end

-- The first cell in just one of two lists in the order of rows.
local function first_difference(a, b)
    local i = 1
    while a[i] and b[i] and a[i].x == b[i].x and a[i].y == b[i].y do i = i + 1 end
    local p, q = a[i], b[i]
    if not p or (q and (q.y < p.y or (q.y == p.y and q.x < p.x))) then return q end
    return p
end

local function main()
    local here, info = g.getlayer(), g.getinfo()
    local last = tonumber(info:match("generations (%d+)"))
    if not last then
        life.ask.warn("This layer is no construction: its text names no generation to run to. Open one by compile.lua first.")
        return nil
    end
    if here == 0 then
        life.ask.warn("There is no layer before this one, and so no target to compare with.")
        return nil
    end
    if tonumber(g.getgen()) > last then
        life.ask.warn("This construction is already past generation " .. last .. ". Reset it first.")
        return nil
    end
    local left, top, width, height = info:match("selection (%-?%d+) (%-?%d+) (%d+) (%d+)")
    local selection = left and { tonumber(left), tonumber(top), tonumber(width), tonumber(height) } or nil
    local wanted = target_cells(here, selection)
    run_to(last)
    local box = g.getrect()
    local found = life.cells_of(#box > 0 and g.getcells(box) or {})
    g.fit()
    if life.same(found, wanted) then
        life.ask.tell(string.format("In generation %d it is exactly the target: %d cells, and nothing else alive.", last, #wanted))
        return true
    end
    local cell = first_difference(found, wanted)
    g.setpos(tostring(cell.x), tostring(cell.y))
    life.ask.warn(string.format("In generation %d it is not the target of the layer before: the first cell of the difference is (%d, %d).", last, cell.x, cell.y))
    return false
end

return main()
