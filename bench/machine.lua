-- The loops of bench/machine.py in Lua, with so many turns.
local name, turns = arg[1], tonumber(arg[2])

local function plain()
  local s, i = 0, 0
  while i < turns do
    s = (s * 3 + i) % 1000003
    i = i + 1
  end
  return s
end

local function sum(s, i)
  return (s * 3 + i) % 1000003
end

local function calling()
  local s, i = 0, 0
  while i < turns do
    s = sum(s, i)
    i = i + 1
  end
  return s
end

local function array()
  local a = {}
  for i = 1, 1000 do
    a[i] = 0
  end
  local j = 0
  while j < turns do
    local i = 0
    while i < 1000 do
      a[i + 1] = (a[i + 1] + i) % 1000003
      i = i + 1
    end
    j = j + 1
  end
  return a[1000]
end

local function fib(n)
  if n < 2 then
    return n
  end
  return fib(n - 1) + fib(n - 2)
end

local loops = { plain = plain, calling = calling, array = array, fib = function() return fib(turns) end }
print(loops[name]())
