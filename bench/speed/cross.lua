local n = 60000
local out = {}
for i = 1, n do
  out[i] = false
end
local count
for k = 1, 15 do
  for i = 10, n do
    out[i] = false
  end
  count = 0
  for i = 10, n do
    if not out[i] then
      count = count + 1
      for j = 10 * i, n, i do
        out[j] = true
      end
    end
  end
end
print(" " .. count)
