local function add(s, i)
  return math.fmod(s + i, 1000003)
end
local s = 0
for i = 1, 1000000 do
  s = add(s, i)
end
print(" " .. s)
