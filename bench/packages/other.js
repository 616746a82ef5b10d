// Other things that programs of JavaScript do: queens on a board, a matrix, texts that are taken apart, and a queue.
function queens(n) {
  var columns = {}, up = {}, down = {}, found = 0;
  function place(row) {
    if (row === n) { found++; return; }
    for (var c = 0; c < n; c++) {
      if (!columns[c] && !up[row + c] && !down[row - c + n]) {
        columns[c] = up[row + c] = down[row - c + n] = true;
        place(row + 1);
        columns[c] = up[row + c] = down[row - c + n] = false;
      }
    }
  }
  place(0);
  return found;
}

function product(n) {
  var a = [], b = [], sum = 0, i, j, k;
  for (i = 0; i < n; i++) {
    a[i] = []; b[i] = new Float64Array(n);
    for (j = 0; j < n; j++) { a[i][j] = i / (j + 1); b[i][j] = i - j; }
  }
  for (i = 0; i < n; i++) for (j = 0; j < n; j++) for (k = 0; k < n; k++) sum += a[i][k] * b[k][j];
  return sum;
}

function Queue() { this.first = 0; this.items = {}; this.last = 0; }
Queue.prototype = {
  push: function (event) { this.items[this.last++] = event; },
  pop: function () { var event = this.items[this.first]; delete this.items[this.first++]; return event; },
  get length() { return this.last - this.first; }
};

print(queens(5), product(9).toFixed(3));
var lines = [], values = {}, i;
for (i = 1; i <= 50; i++) lines.push('key' + i + ' = ' + (i % 3 ? i * 1.5 : '"text' + i + '"') + ';');
lines.join('\n').split('\n').forEach(function (line) {
  var found = /^(\w+) = (.*);$/.exec(line);
  if (found) values[found[1]] = JSON.parse(found[2]);
});
print(values.key3, values.key50, Object.keys(values).length);
var queue = new Queue(), sum = 0;
for (i = 1; i <= 60; i++) queue.push({ time: i * 7 % 31, name: 'e' + i });
while (queue.length > 0) {
  var event = queue.pop();
  switch (event.time % 4) {
    case 0: sum += event.name.length; break;
    case 1: sum -= event.time; break;
    default: sum += event.time * 2;
  }
  if (event.time === 0) queue.push({ time: 1, name: event.name.toUpperCase() });
}
print(sum, [3, 1, 2].sort(function (x, y) { return y - x; }).join(), 'a-b-c'.lastIndexOf('-'), isNaN('x'), 0x7f ^ 5);
try { null.field; } catch (e) { print(e instanceof TypeError); }
