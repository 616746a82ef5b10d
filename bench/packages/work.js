// Some of what programs of JavaScript do: numbers, lists, objects, texts, expressions, closures and errors.
function fib(n) { return n < 2 ? n : fib(n - 1) + fib(n - 2); }

function sieve(limit) {
  var composite = [], primes = [];
  for (var i = 2; i <= limit; i++) {
    if (composite[i]) continue;
    primes.push(i);
    for (var j = i * i; j <= limit; j += i) composite[j] = true;
  }
  return primes;
}

function Account(balance) { this.balance = balance; }
Account.prototype.withdraw = function (amount) {
  if (amount > this.balance) throw new RangeError('lacking ' + (amount - this.balance));
  this.balance -= amount;
};

function words(count) {
  var seed = 42, list = [];
  for (var i = 0; i < count; i++) {
    seed = (seed * 69069 + 1) % 4294967296;
    list.push(seed.toString(16) + '-' + 'ababababab'.substr(0, seed % 5 * 2));
  }
  return list;
}

function tree(depth) {
  return depth ? { left: tree(depth - 1), right: tree(depth - 1), name: 'n' + depth, at: [depth, depth / 2] } : null;
}

function count(node) { return node ? 1 + count(node.left) + count(node.right) : 0; }

print(fib(12), sieve(300).length);
var list = words(60);
list.sort();
print(list[0], list[list.length - 1], list.join(',').length);
print('a quick brown fox'.replace(/[a-z]+/g, function (w) { return w.split('').reverse().join('').toUpperCase(); }));
var account = new Account(100), why;
try { account.withdraw(30); account.withdraw(100); } catch (e) { why = e; }
print(why.name, why.message, account.balance);
var text = JSON.stringify(tree(4)), back = JSON.parse(text);
print(text.length, count(back), Object.keys(back).sort().join(' '));
print([5, 3, 9, 1].map(function (x) { return x * x; }).filter(function (x) { return x > 5; })
  .reduce(function (a, b) { return a + b; }, 0));
var groups = {};
list.forEach(function (word) { var key = word.charAt(0); (groups[key] = groups[key] || []).push(word); });
print(Object.keys(groups).map(function (key) { return key + groups[key].length; }).join(' '));
print((3.14159).toFixed(2), 7 / 2, Math.pow(2, 10), Math.floor(-2.5), 10 % 3.5, parseInt('ff', 16), 1 << 20);
var bytes = new Uint8Array(64);
for (var i = 0; i < 64; i++) bytes[i] = i * 37;
print(bytes[63], Array.prototype.slice.call(bytes, 0, 4).join('-'), encodeURIComponent('a b/c'));
print(/(\d+)-(\d+)/.exec('from 12-345 on').slice(1).join('+'), 'x'.concat(1, true, null), typeof undefined);
