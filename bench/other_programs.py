"""Ten programs of other kinds than those of run_speed.py, which no slot of the inner loop was made from, each beside the same one in Lua: name, objects, text, Lua's."""

HASH_TABLE = """struct entry { int key; int count; struct entry* next; };
int main() { int size = 512; struct entry*[] table = alloc_array(struct entry*, size); int key = 1; int hits = 0;
  for (int i = 0; i < 20000; i++) { key = (key * 1103 + 12345) % 65536; int word = key % 1000; int at = (word * 31 + 7) % size; struct entry* e = table[at];
    while (e != NULL && e->key != word) { e = e->next; }
    if (e == NULL) { e = alloc(struct entry); e->key = word; e->next = table[at]; table[at] = e; } else { hits++; }
    e->count = e->count + 1; }
  return hits; }"""
HASH_TABLE_LUA = """local size, key, hits = 512, 1, 0
local table_ = {}
for i = 1, 20000 do key = (key * 1103 + 12345) % 65536 local word = key % 1000 local at = (word * 31 + 7) % size local e = table_[at]
  while e ~= nil and e.key ~= word do e = e.next end
  if e == nil then e = {key = word, count = 0, next = table_[at]} table_[at] = e else hits = hits + 1 end
  e.count = e.count + 1 end
print('result: ' .. hits)"""

TREE = """struct tree { int key; struct tree* left; struct tree* right; };
struct tree* insert(struct tree* t, int key) { if (t == NULL) { struct tree* n = alloc(struct tree); n->key = key; return n; }
  if (key < t->key) { t->left = insert(t->left, key); } else if (key > t->key) { t->right = insert(t->right, key); } return t; }
bool has(struct tree* t, int key) { while (t != NULL) { if (key == t->key) return true; if (key < t->key) { t = t->left; } else { t = t->right; } } return false; }
int main() { struct tree* t = NULL; int key = 1; for (int i = 0; i < 1000; i++) { key = (key * 1103 + 12345) % 65536; t = insert(t, key % 5000); }
  int found = 0; for (int i = 0; i < 10000; i++) { key = (key * 1103 + 12345) % 65536; if (has(t, key % 5000)) { found++; } } return found; }"""
TREE_LUA = """local function insert(t, key) if t == nil then return {key = key} end
  if key < t.key then t.left = insert(t.left, key) elseif key > t.key then t.right = insert(t.right, key) end return t end
local function has(t, key) while t ~= nil do if key == t.key then return true end if key < t.key then t = t.left else t = t.right end end return false end
local t, key = nil, 1
for i = 1, 1000 do key = (key * 1103 + 12345) % 65536 t = insert(t, key % 5000) end
local found = 0
for i = 1, 10000 do key = (key * 1103 + 12345) % 65536 if has(t, key % 5000) then found = found + 1 end end
print('result: ' .. found)"""

CHARACTERS = """int main() { int n = 2000; char[] text = alloc_array(char, n); for (int i = 0; i < n; i++) { if (i % 7 == 3) { text[i] = ' '; } else if (i % 5 == 1) { text[i] = 'e'; } else { text[i] = 'x'; } }
  int words = 0; int es = 0; for (int k = 0; k < 40; k++) { bool inside = false; for (int i = 0; i < n; i++) { char c = text[i]; if (c == ' ') { inside = false; } else { if (!inside) { words++; inside = true; } if (c == 'e') { es++; } } }
    int low = 0; int high = n - 1; while (low < high) { char c = text[low]; text[low] = text[high]; text[high] = c; low++; high--; } } return words * 10 + es % 10; }"""
CHARACTERS_LUA = """local n, text = 2000, {}
for i = 0, n - 1 do if i % 7 == 3 then text[i] = ' ' elseif i % 5 == 1 then text[i] = 'e' else text[i] = 'x' end end
local words, es = 0, 0
for k = 1, 40 do local inside = false for i = 0, n - 1 do local c = text[i] if c == ' ' then inside = false else if not inside then words = words + 1 inside = true end if c == 'e' then es = es + 1 end end end
  local low, high = 0, n - 1 while low < high do text[low], text[high] = text[high], text[low] low = low + 1 high = high - 1 end end
print('result: ' .. (words * 10 + es % 10))"""

STRUCTS = """struct body { int x; int y; int dx; int dy; };
int main() { int n = 100; struct body[] b = alloc_array(struct body, n); for (int i = 0; i < n; i++) { b[i].x = i * 3; b[i].y = i * 5; b[i].dx = i % 7 - 3; b[i].dy = i % 5 - 2; }
  for (int k = 0; k < 200; k++) { for (int i = 0; i < n; i++) { b[i].x += b[i].dx; b[i].y += b[i].dy; if (b[i].x < 0 || b[i].x > 300) { b[i].dx = -b[i].dx; } if (b[i].y < 0 || b[i].y > 500) { b[i].dy = -b[i].dy; } } }
  int sum = 0; for (int i = 0; i < n; i++) { sum += b[i].x + b[i].y; } return sum; }"""
STRUCTS_LUA = """local n, b = 100, {}
for i = 0, n - 1 do b[i] = {x = i * 3, y = i * 5, dx = i % 7 - 3, dy = i % 5 - 2} end
for k = 1, 200 do for i = 0, n - 1 do local it = b[i] it.x = it.x + it.dx it.y = it.y + it.dy if it.x < 0 or it.x > 300 then it.dx = -it.dx end if it.y < 0 or it.y > 500 then it.dy = -it.dy end end end
local sum = 0
for i = 0, n - 1 do sum = sum + b[i].x + b[i].y end
print('result: ' .. sum)"""

QUICK_SORT = """void sort(int[] a, int low, int high) { while (low < high) { int pivot = a[(low + high) / 2]; int i = low; int j = high;
    while (i <= j) { while (a[i] < pivot) { i++; } while (a[j] > pivot) { j--; } if (i <= j) { int t = a[i]; a[i] = a[j]; a[j] = t; i++; j--; } }
    sort(a, low, j); low = i; } }
int main() { int n = 3000; int[] a = alloc_array(int, n); int sum = 0; for (int k = 0; k < 5; k++) { int x = k + 1; for (int i = 0; i < n; i++) { x = (x * 1103 + 12345) % 65536; a[i] = x; } sort(a, 0, n - 1); sum += a[n / 2]; } return sum; }"""
QUICK_SORT_LUA = """local function sort(a, low, high) while low < high do local pivot = a[(low + high) // 2] local i, j = low, high
    while i <= j do while a[i] < pivot do i = i + 1 end while a[j] > pivot do j = j - 1 end if i <= j then a[i], a[j] = a[j], a[i] i = i + 1 j = j - 1 end end
    sort(a, low, j) low = i end end
local n, a, sum = 3000, {}, 0
for k = 0, 4 do local x = k + 1 for i = 0, n - 1 do x = (x * 1103 + 12345) % 65536 a[i] = x end sort(a, 0, n - 1) sum = sum + a[n // 2] end
print('result: ' .. sum)"""

QUEUE = """struct item { int value; struct item* next; };
int main() { struct item* first = alloc(struct item); struct item* last = first; int next = 1; int sum = 0;
  for (int k = 0; k < 60; k++) { struct item* at = first; while (at->next != NULL) { at = at->next; sum += at->value % 3; }
    for (int i = 0; i < 20; i++) { struct item* it = alloc(struct item); it->value = next; next++; last->next = it; last = it; }
    for (int i = 0; i < 12; i++) { if (first->next != NULL) { first = first->next; } } } return sum; }"""
QUEUE_LUA = """local first = {value = 0} local last, next_, sum = first, 1, 0
for k = 1, 60 do local at = first while at.next ~= nil do at = at.next sum = sum + at.value % 3 end
  for i = 1, 20 do local it = {value = next_} next_ = next_ + 1 last.next = it last = it end
  for i = 1, 12 do if first.next ~= nil then first = first.next end end end
print('result: ' .. sum)"""

LIFE = """int main() { int w = 40; int h = 40; bool[] a = alloc_array(bool, w * h); bool[] b = alloc_array(bool, w * h); for (int i = 0; i < w * h; i++) { a[i] = i * 7 % 11 < 4; }
  for (int k = 0; k < 8; k++) { for (int y = 1; y < h - 1; y++) { for (int x = 1; x < w - 1; x++) { int n = 0;
      for (int dy = -1; dy <= 1; dy++) { for (int dx = -1; dx <= 1; dx++) { if ((dx != 0 || dy != 0) && a[(y + dy) * w + x + dx]) { n++; } } }
      b[y * w + x] = n == 3 || (a[y * w + x] && n == 2); } } bool[] t = a; a = b; b = t; }
  int alive = 0; for (int i = 0; i < w * h; i++) { if (a[i]) { alive++; } } return alive; }"""
LIFE_LUA = """local w, h, a, b = 40, 40, {}, {}
for i = 0, w * h - 1 do a[i] = i * 7 % 11 < 4 b[i] = false end
for k = 1, 8 do for y = 1, h - 2 do for x = 1, w - 2 do local n = 0
  for dy = -1, 1 do for dx = -1, 1 do if (dx ~= 0 or dy ~= 0) and a[(y + dy) * w + x + dx] then n = n + 1 end end end
  b[y * w + x] = n == 3 or (a[y * w + x] and n == 2) end end a, b = b, a end
local alive = 0
for i = 0, w * h - 1 do if a[i] then alive = alive + 1 end end
print('result: ' .. alive)"""

KNAPSACK = """int max(int x, int y) { return x > y ? x : y; }
int main() { int n = 40; int most = 1000; int[] best = alloc_array(int, most + 1); int[] weight = alloc_array(int, n); int[] worth = alloc_array(int, n);
  for (int i = 0; i < n; i++) { weight[i] = 10 + i * 37 % 90; worth[i] = 5 + i * 53 % 70; }
  for (int i = 0; i < n; i++) { for (int room = most; room >= weight[i]; room--) { best[room] = max(best[room], best[room - weight[i]] + worth[i]); } } return best[most]; }"""
KNAPSACK_LUA = """local function max(x, y) if x > y then return x else return y end end
local n, most, best, weight, worth = 40, 1000, {}, {}, {}
for i = 0, most do best[i] = 0 end
for i = 0, n - 1 do weight[i] = 10 + i * 37 % 90 worth[i] = 5 + i * 53 % 70 end
for i = 0, n - 1 do for room = most, weight[i], -1 do best[room] = max(best[room], best[room - weight[i]] + worth[i]) end end
print('result: ' .. best[most])"""

QUEENS = """int place(int row, int n, bool[] columns, bool[] up, bool[] down) { if (row == n) return 1; int ways = 0;
  for (int c = 0; c < n; c++) { if (!columns[c] && !up[row + c] && !down[row - c + n]) { columns[c] = true; up[row + c] = true; down[row - c + n] = true;
    ways += place(row + 1, n, columns, up, down); columns[c] = false; up[row + c] = false; down[row - c + n] = false; } } return ways; }
int main() { int n = 7; return place(0, n, alloc_array(bool, n), alloc_array(bool, 2 * n), alloc_array(bool, 2 * n + 1)); }"""
QUEENS_LUA = """local function place(row, n, columns, up, down) if row == n then return 1 end local ways = 0
  for c = 0, n - 1 do if not columns[c] and not up[row + c] and not down[row - c + n] then columns[c] = true up[row + c] = true down[row - c + n] = true
    ways = ways + place(row + 1, n, columns, up, down) columns[c] = false up[row + c] = false down[row - c + n] = false end end return ways end
print('result: ' .. place(0, 7, {}, {}, {}))"""

COLLATZ = """int main() { int longest = 0; for (int i = 1; i < 2000; i++) { int x = i; int steps = 0; while (x != 1) { if (x % 2 == 0) { x = x / 2; } else { x = 3 * x + 1; } steps++; } if (steps > longest) { longest = steps; } } return longest; }"""
COLLATZ_LUA = """local longest = 0
for i = 1, 1999 do local x, steps = i, 0 while x ~= 1 do if x % 2 == 0 then x = x // 2 else x = 3 * x + 1 end steps = steps + 1 end if steps > longest then longest = steps end end
print('result: ' .. longest)"""

OTHERS = [
    ("a hash table of 1,000 keys, 20,000 lookups", 1_100, HASH_TABLE, HASH_TABLE_LUA),
    ("a search tree of 1,000 keys, 10,000 lookups", 1_100, TREE, TREE_LUA),
    ("words and reversals of 2,000 characters", 32, CHARACTERS, CHARACTERS_LUA),
    ("100 structs that move 200 times", 16, STRUCTS, STRUCTS_LUA),
    ("quicksort of 3,000 ints, 5 times", 47, QUICK_SORT, QUICK_SORT_LUA),
    ("a queue walked 60 times", 1_201, QUEUE, QUEUE_LUA),
    ("8 turns of life on 40 x 40", 50, LIFE, LIFE_LUA),
    ("a knapsack of 40 items and 1,000", 20, KNAPSACK, KNAPSACK_LUA),
    ("7 queens", 8, QUEENS, QUEENS_LUA),
    ("the steps of Collatz up to 2,000", 0, COLLATZ, COLLATZ_LUA),
]
