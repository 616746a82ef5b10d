-- Other things that Lua programs do: queens on a board, a matrix, texts that are taken apart, and a queue of events.
local function queens(n)
  local columns, up, down, found = {}, {}, {}, 0
  local function place(row)
    if row > n then found = found + 1 return end
    for column = 1, n do
      if not columns[column] and not up[row + column] and not down[row - column + n] then
        columns[column], up[row + column], down[row - column + n] = true, true, true
        place(row + 1)
        columns[column], up[row + column], down[row - column + n] = nil, nil, nil
      end
    end
  end
  place(1)
  return found
end

local function product(n)
  local a, b, sum = {}, {}, 0.0
  for i = 1, n do
    a[i], b[i] = {}, {}
    for j = 1, n do a[i][j], b[i][j] = i / j, i - j end
  end
  for i = 1, n do
    for j = 1, n do
      for k = 1, n do sum = sum + a[i][k] * b[k][j] end
    end
  end
  return sum
end

local function parse(text)
  local values = {}
  for key, value in text:gmatch("(%w+)%s*=%s*([^;]+);") do values[key] = tonumber(value) or value end
  return values
end

local queue = setmetatable({first = 1, last = 0}, {__len = function(q) return q.last - q.first + 1 end})
function queue:push(event) self.last = self.last + 1; self[self.last] = event end
function queue:pop()
  local event = self[self.first]
  self[self.first], self.first = nil, self.first + 1
  return event
end

print(queens(6), string.format("%.3f", product(14)))
local lines = {}
for i = 1, 80 do lines[i] = ("key%d = %s;"):format(i, i % 3 == 0 and "text" .. i or tostring(i * 1.5)) end
local values = parse(table.concat(lines, "\n"))
print(values.key3, values.key80, #lines)
for i = 1, 100 do queue:push({time = i * 7 % 31, name = "e" .. i}) end
local sum = 0
while #queue > 0 do
  local event = queue:pop()
  sum = sum + event.time * #event.name
  if event.time == 0 then queue:push({time = 1, name = event.name:upper()}) end
end
print(sum, select("#", table.unpack({1, 2, nil, 4}, 1, 4)), ("x"):rep(5, "-"), math.type(3), 0x7f ~ 5)
