// A bank, a list and a tree in plain arrays: what a workload does where nobody else is there.
// peer.cc includes it. With TRANSACTIONS defined the same functions may run in transactions of the compiler.
#pragma once
#include <cstdint>

#ifdef TRANSACTIONS
#define IN_TRANSACTION __attribute__((transaction_safe))
#else
#define IN_TRANSACTION
#endif

enum class Verb : uint32_t {
  Transfer, Balance, Total, ListInsert, ListRemove, ListMember, TreeInsert, TreeRemove, TreeMember, Put, Get
};

struct Operation {
  Verb verb;
  uint32_t first, second;  // accounts, or a key
  uint64_t number;         // an amount, or a value
};

// Replies that are no numbers have the greatest numbers. (A value of a key that is as great would be taken for one.)
enum Reply : uint64_t { Ok = ~0ull - 5, Poor, Yes, No, Full, Absent };

struct ListNode { uint32_t key, next; };
struct TreeNode { uint32_t key, red, child[2]; uint64_t value; };

// Node 0 stands for none. Free nodes are chained by `next` and by `child[0]`.
static uint64_t accounts[4096];
static ListNode list_nodes[1025];
static TreeNode tree_nodes[65536];
static uint32_t list_head, list_free, tree_root, tree_free;

static void open_store(uint32_t count, uint64_t balance, uint32_t list_room, uint32_t tree_room) {
  for (uint32_t i = 0; i < count; i++) accounts[i] = balance;
  for (uint32_t i = 1; i <= list_room; i++) list_nodes[i].next = i < list_room ? i + 1 : 0;
  for (uint32_t i = 1; i <= tree_room; i++) tree_nodes[i].child[0] = i < tree_room ? i + 1 : 0;
  list_free = list_room > 0;
  tree_free = tree_room > 0;
}

// The bank.

IN_TRANSACTION static uint64_t transfer(uint32_t source, uint32_t target, uint64_t amount) {
  uint64_t balance = accounts[source];
  if (balance < amount) return Poor;
  if (source == target) return Ok;
  accounts[source] = balance - amount;
  accounts[target] += amount;
  return Ok;
}

IN_TRANSACTION static uint64_t total(uint32_t count) {
  uint64_t sum = 0;
  for (uint32_t i = 0; i < count; i++) sum += accounts[i];
  return sum;
}

// The list. A place is where a key is, or has to go.

struct ListPlace { uint32_t before, node; bool found; };

IN_TRANSACTION static ListPlace list_find(uint32_t key) {
  uint32_t before = 0, node = list_head;
  while (node) {
    uint32_t here = list_nodes[node].key;
    if (here >= key) return {before, node, here == key};
    before = node;
    node = list_nodes[node].next;
  }
  return {before, 0, false};
}

IN_TRANSACTION static void list_link(uint32_t before, uint32_t node) {
  if (before) list_nodes[before].next = node; else list_head = node;
}

IN_TRANSACTION static uint64_t list_insert(uint32_t key) {
  ListPlace place = list_find(key);
  if (place.found) return No;
  uint32_t node = list_free;
  if (!node) return Full;
  list_free = list_nodes[node].next;
  list_nodes[node].key = key;
  list_nodes[node].next = place.node;
  list_link(place.before, node);
  return Yes;
}

IN_TRANSACTION static uint64_t list_remove(uint32_t key) {
  ListPlace place = list_find(key);
  if (!place.found) return No;
  list_link(place.before, list_nodes[place.node].next);
  list_nodes[place.node].next = list_free;
  list_free = place.node;
  return Yes;
}

IN_TRANSACTION static uint64_t list_member(uint32_t key) { return list_find(key).found ? Yes : No; }

// The tree is a red-black one without links to parents: a way down is kept as its turns.

struct Turn { uint32_t node, side; };
struct Way { Turn turns[64]; int length; };

IN_TRANSACTION static void go(Way &way, uint32_t node, uint32_t side) {
  way.turns[way.length].node = node;
  way.turns[way.length].side = side;
  way.length++;
}

// The node with this key, or 0, and the way to where it is or has to go.
IN_TRANSACTION static uint32_t tree_find(uint32_t key, Way &way) {
  uint32_t node = tree_root;
  while (node) {
    uint32_t here = tree_nodes[node].key;
    if (here == key) return node;
    go(way, node, key > here);
    node = tree_nodes[node].child[key > here];
  }
  return 0;
}

// Hangs a node where the first `length` turns of the way lead.
IN_TRANSACTION static void hang(const Way &way, int length, uint32_t node) {
  if (!length) { tree_root = node; return; }
  const Turn &last = way.turns[length - 1];
  tree_nodes[last.node].child[last.side] = node;
}

// Brings a node down to this side. Its other child, which comes up, is answered.
IN_TRANSACTION static uint32_t rotate(uint32_t node, uint32_t side) {
  uint32_t up = tree_nodes[node].child[!side];
  tree_nodes[node].child[!side] = tree_nodes[up].child[side];
  tree_nodes[up].child[side] = node;
  return up;
}

// A red node hangs where the way leads: no red node shall have a red parent.
IN_TRANSACTION static void mend_red(Way &way, uint32_t node) {
  while (way.length) {
    Turn above = way.turns[way.length - 1];
    uint32_t parent = above.node;
    if (!tree_nodes[parent].red) return;
    Turn top = way.turns[way.length - 2];
    way.length -= 2;
    uint32_t uncle = tree_nodes[top.node].child[!top.side];
    if (uncle && tree_nodes[uncle].red) {
      tree_nodes[parent].red = tree_nodes[uncle].red = 0;
      tree_nodes[top.node].red = 1;
      node = top.node;
      continue;
    }
    if (above.side != top.side) {
      parent = rotate(parent, top.side);
      tree_nodes[top.node].child[top.side] = parent;
    }
    tree_nodes[parent].red = 0;
    tree_nodes[top.node].red = 1;
    hang(way, way.length, rotate(top.node, !top.side));
    return;
  }
  tree_nodes[node].red = 0;
}

// What hangs where the way leads has one black node too few on its ways down.
IN_TRANSACTION static void mend_black(Way &way) {
  while (way.length) {
    Turn above = way.turns[way.length - 1];
    uint32_t parent = above.node, side = above.side, sibling = tree_nodes[parent].child[!side];
    if (tree_nodes[sibling].red) {
      tree_nodes[sibling].red = 0;
      tree_nodes[parent].red = 1;
      hang(way, way.length - 1, rotate(parent, side));
      way.turns[way.length - 1].node = sibling;
      go(way, parent, side);
      sibling = tree_nodes[parent].child[!side];
    }
    uint32_t near = tree_nodes[sibling].child[side], far = tree_nodes[sibling].child[!side];
    bool near_red = near && tree_nodes[near].red, far_red = far && tree_nodes[far].red;
    if (!near_red && !far_red) {
      tree_nodes[sibling].red = 1;
      if (tree_nodes[parent].red) { tree_nodes[parent].red = 0; return; }
      way.length--;
      continue;
    }
    if (!far_red) {
      tree_nodes[near].red = 0;
      tree_nodes[sibling].red = 1;
      far = sibling;
      sibling = rotate(sibling, !side);
      tree_nodes[parent].child[!side] = sibling;
    }
    tree_nodes[sibling].red = tree_nodes[parent].red;
    tree_nodes[parent].red = tree_nodes[far].red = 0;
    hang(way, way.length - 1, rotate(parent, side));
    return;
  }
}

// Adds a key that is absent, with a value.
IN_TRANSACTION static uint64_t tree_add(Way &way, uint32_t key, uint64_t value) {
  uint32_t node = tree_free;
  if (!node) return Full;
  tree_free = tree_nodes[node].child[0];
  tree_nodes[node].key = key;
  tree_nodes[node].red = 1;
  tree_nodes[node].child[0] = tree_nodes[node].child[1] = 0;
  tree_nodes[node].value = value;
  hang(way, way.length, node);
  mend_red(way, node);
  return Yes;
}

IN_TRANSACTION static uint64_t tree_insert(uint32_t key) {
  Way way;
  way.length = 0;
  if (tree_find(key, way)) return No;
  return tree_add(way, key, 0);
}

IN_TRANSACTION static uint64_t tree_put(uint32_t key, uint64_t value) {
  Way way;
  way.length = 0;
  uint32_t node = tree_find(key, way);
  if (!node) return tree_add(way, key, value);
  tree_nodes[node].value = value;
  return No;
}

IN_TRANSACTION static uint64_t tree_remove(uint32_t key) {
  Way way;
  way.length = 0;
  uint32_t node = tree_find(key, way);
  if (!node) return No;
  uint32_t left = tree_nodes[node].child[0], right = tree_nodes[node].child[1];
  if (left && right) {  // the next key comes here, and its node goes
    uint32_t keeper = node;
    go(way, node, 1);
    node = right;
    while ((left = tree_nodes[node].child[0])) { go(way, node, 0); node = left; }
    tree_nodes[keeper].key = tree_nodes[node].key;
    tree_nodes[keeper].value = tree_nodes[node].value;
    right = tree_nodes[node].child[1];
  }
  uint32_t heir = left ? left : right;
  hang(way, way.length, heir);
  tree_nodes[node].child[0] = tree_free;
  tree_free = node;
  if (tree_nodes[node].red) return Yes;
  if (heir) tree_nodes[heir].red = 0; else mend_black(way);
  return Yes;
}

IN_TRANSACTION static uint32_t tree_look_up(uint32_t key) {
  uint32_t node = tree_root;
  while (node && tree_nodes[node].key != key) node = tree_nodes[node].child[key > tree_nodes[node].key];
  return node;
}

IN_TRANSACTION static uint64_t tree_member(uint32_t key) { return tree_look_up(key) ? Yes : No; }

IN_TRANSACTION static uint64_t tree_get(uint32_t key) {
  uint32_t node = tree_look_up(key);
  return node ? tree_nodes[node].value : uint64_t(Absent);
}

// Runs one operation on a bank of `count` accounts, the list and the tree.
IN_TRANSACTION static uint64_t run_operation(const Operation &op, uint32_t count) {
  switch (op.verb) {
    case Verb::Transfer: return transfer(op.first, op.second, op.number);
    case Verb::Balance: return accounts[op.first];
    case Verb::Total: return total(count);
    case Verb::ListInsert: return list_insert(op.first);
    case Verb::ListRemove: return list_remove(op.first);
    case Verb::ListMember: return list_member(op.first);
    case Verb::TreeInsert: return tree_insert(op.first);
    case Verb::TreeRemove: return tree_remove(op.first);
    case Verb::TreeMember: return tree_member(op.first);
    case Verb::Put: return tree_put(op.first, op.number);
    case Verb::Get: return tree_get(op.first);
  }
  return 0;
}
