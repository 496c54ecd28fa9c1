local n = 200
local a, b = {}, {}
for i = 1, n do
  a[i] = {}
end
for j = 1, n do
  for i = 1, n do
    a[i][j] = math.fmod(i * j, 17)
  end
end
local t = 0
for j = 1, n do
  for k = 1, n do
    b[k] = math.fmod(k + j, 13)
  end
  for i = 1, n do
    local s = 0
    for k = 1, n do
      s = s + a[i][k] * b[k]
    end
    t = math.fmod(t + s, 1000003)
  end
end
print(" " .. t)
