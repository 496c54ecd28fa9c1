local s = 0
for i = 1, 3000000 do
  s = math.fmod(s + i, 1000003)
end
print(" " .. s)
