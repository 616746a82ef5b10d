-- Some of what Lua programs do: numbers, tables, texts, closures, coroutines and errors.
local function fib(n) if n < 2 then return n end return fib(n - 1) + fib(n - 2) end

local function sieve(limit)
  local composite, primes = {}, {}
  for i = 2, limit do
    if not composite[i] then
      primes[#primes + 1] = i
      for j = i * i, limit, i do composite[j] = true end
    end
  end
  return primes
end

local function words(count)
  local seed, list = 42, {}
  for i = 1, count do
    seed = (seed * 1103515245 + 12345) % 2147483648
    list[i] = string.format("%x-%s", seed, string.rep("ab", seed % 5))
  end
  return list
end

local Account = {}
Account.__index = Account
function Account.new(balance) return setmetatable({balance = balance}, Account) end
function Account:withdraw(amount)
  if amount > self.balance then error({code = "poor", lacking = amount - self.balance}) end
  self.balance = self.balance - amount
end

local function generate(n)
  return coroutine.wrap(function() for i = 1, n do coroutine.yield(i * i) end end)
end

print(fib(15), #sieve(500))
local list = words(60)
table.sort(list)
print(list[1], list[#list], #table.concat(list, ","))
print((("a quick brown fox"):gsub("%w+", function(w) return w:reverse():upper() end)))
local account = Account.new(100)
local ok, why = pcall(function() account:withdraw(30); account:withdraw(100) end)
print(ok, why.code, why.lacking)
local total = 0
for square in generate(20) do total = total + square end
print(total, 7 // 2, 7 / 2, 2 ^ 10, 10 % 3.5, 1 << 20)
print(string.format("%5.2f %q %d", 3.14159, "a\nb", -7), tostring(nil), #"text", math.floor(-2.5))
