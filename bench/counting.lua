-- The counting loop without a monitor, of as many units as the timed run of the archive has. Prints the best time of a unit, in nanoseconds.
local rounds <const> = (1000000 - 1) // 2
local units <const> = 2 * rounds + 1

local best = math.huge
for _ = 1, 21 do
    local start = os.clock()
    local i, n = 0, rounds
    while i < n do
        i = i + 1
    end
    best = math.min(best, os.clock() - start)
end
print(best * 1e9 / units)
