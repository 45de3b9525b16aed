// The parts of std::map, std::set and std::list that libstdc++ has compiled, here compiled as a program's own text is, so
// that their reads and writes are recorded. They are linked where a program needs them, and take the library's place.
// Written anew after the interface in <bits/stl_tree.h> and <bits/stl_list.h>: a header node has the root as its parent,
// and the least and the greatest node at its left and right.
#include <list>
#include <map>

namespace {
using Node = std::_Rb_tree_node_base;

// The place that holds the link to a node: in its parent, or in the header.
Node *&link_to(Node *x, Node *&root) {
  if (x == root) return root;
  return x == x->_M_parent->_M_left ? x->_M_parent->_M_left : x->_M_parent->_M_right;
}

// Turns a node down to its left or right; its other child takes its place.
void turn(Node *x, bool left, Node *&root) {
  Node *y = left ? x->_M_right : x->_M_left;
  Node *&place = link_to(x, root);
  Node *&from = left ? y->_M_left : y->_M_right;
  (left ? x->_M_right : x->_M_left) = from;
  if (from) from->_M_parent = x;
  y->_M_parent = x->_M_parent;
  place = y;
  from = x;
  x->_M_parent = y;
}

bool is_red(const Node *x) { return x && x->_M_color == std::_S_red; }

Node *leftmost(Node *x) {
  while (x->_M_left) x = x->_M_left;
  return x;
}

Node *rightmost(Node *x) {
  while (x->_M_right) x = x->_M_right;
  return x;
}

Node *following(Node *x) {
  if (x->_M_right) return leftmost(x->_M_right);
  Node *y = x->_M_parent;
  while (x == y->_M_right) {
    x = y;
    y = y->_M_parent;
  }
  return x->_M_right != y ? y : x;  // past the greatest node is the header
}

Node *preceding(Node *x) {
  if (x->_M_color == std::_S_red && x->_M_parent->_M_parent == x) return x->_M_right;  // of the header
  if (x->_M_left) return rightmost(x->_M_left);
  Node *y = x->_M_parent;
  while (x == y->_M_left) {
    x = y;
    y = y->_M_parent;
  }
  return y;
}
}  // namespace

namespace std {
Node *_Rb_tree_increment(Node *x) throw() { return following(x); }
const Node *_Rb_tree_increment(const Node *x) throw() { return following(const_cast<Node *>(x)); }
Node *_Rb_tree_decrement(Node *x) throw() { return preceding(x); }
const Node *_Rb_tree_decrement(const Node *x) throw() { return preceding(const_cast<Node *>(x)); }

void _Rb_tree_insert_and_rebalance(const bool left, Node *x, Node *parent, Node &header) throw() {
  Node *&root = header._M_parent;
  x->_M_parent = parent;
  x->_M_left = x->_M_right = nullptr;
  x->_M_color = _S_red;
  if (left) {
    parent->_M_left = x;  // of the header too, so that the first node is the least
    if (parent == &header) {
      root = x;
      header._M_right = x;
    } else if (parent == header._M_left) {
      header._M_left = x;
    }
  } else {
    parent->_M_right = x;
    if (parent == header._M_right) header._M_right = x;
  }
  while (x != root && is_red(x->_M_parent)) {
    Node *above = x->_M_parent, *top = above->_M_parent;
    bool at_left = above == top->_M_left;
    Node *uncle = at_left ? top->_M_right : top->_M_left;
    if (is_red(uncle)) {
      above->_M_color = uncle->_M_color = _S_black;
      top->_M_color = _S_red;
      x = top;
      continue;
    }
    if (x == (at_left ? above->_M_right : above->_M_left)) {
      turn(above, at_left, root);
      above = x;
    }
    above->_M_color = _S_black;
    top->_M_color = _S_red;
    turn(top, !at_left, root);
    break;
  }
  root->_M_color = _S_black;
}

Node *_Rb_tree_rebalance_for_erase(Node *const z, Node &header) throw() {
  Node *&root = header._M_parent;
  Node *x, *above;  // what takes the place of the node that goes, and its parent
  _Rb_tree_color gone = z->_M_color;
  if (z->_M_left && z->_M_right) {
    Node *y = leftmost(z->_M_right);
    gone = y->_M_color;
    x = y->_M_right;
    above = y == z->_M_right ? y : y->_M_parent;
    if (y != z->_M_right) {
      if (x) x->_M_parent = above;
      above->_M_left = x;
      y->_M_right = z->_M_right;
      z->_M_right->_M_parent = y;
    }
    y->_M_left = z->_M_left;
    z->_M_left->_M_parent = y;
    link_to(z, root) = y;
    y->_M_parent = z->_M_parent;
    y->_M_color = z->_M_color;
  } else {
    x = z->_M_left ? z->_M_left : z->_M_right;
    above = z->_M_parent;
    if (x) x->_M_parent = above;
    bool least = header._M_left == z, greatest = header._M_right == z;
    link_to(z, root) = x;
    if (least) header._M_left = x ? leftmost(x) : above;
    if (greatest) header._M_right = x ? rightmost(x) : above;
  }
  if (gone == _S_red) return z;
  while (x != root && !is_red(x)) {
    bool at_left = x == above->_M_left;
    Node *other = at_left ? above->_M_right : above->_M_left;
    if (is_red(other)) {
      other->_M_color = _S_black;
      above->_M_color = _S_red;
      turn(above, at_left, root);
      other = at_left ? above->_M_right : above->_M_left;
    }
    Node *near = at_left ? other->_M_left : other->_M_right, *far = at_left ? other->_M_right : other->_M_left;
    if (!is_red(near) && !is_red(far)) {
      other->_M_color = _S_red;
      x = above;
      above = above->_M_parent;
      continue;
    }
    if (!is_red(far)) {
      near->_M_color = _S_black;
      other->_M_color = _S_red;
      turn(other, !at_left, root);
      other = near;
      far = at_left ? other->_M_right : other->_M_left;
    }
    other->_M_color = above->_M_color;
    above->_M_color = _S_black;
    if (far) far->_M_color = _S_black;
    turn(above, at_left, root);
    break;
  }
  if (x) x->_M_color = _S_black;
  return z;
}

namespace __detail {
void _List_node_base::_M_hook(_List_node_base *const at) noexcept {
  _M_next = at;
  _M_prev = at->_M_prev;
  at->_M_prev->_M_next = this;
  at->_M_prev = this;
}

void _List_node_base::_M_unhook() noexcept {
  _List_node_base *after = _M_next, *before = _M_prev;
  before->_M_next = after;
  after->_M_prev = before;
}

void _List_node_base::_M_reverse() noexcept {
  _List_node_base *at = this;
  do {
    _List_node_base *after = at->_M_next;
    at->_M_next = at->_M_prev;
    at->_M_prev = after;
    at = after;
  } while (at != this);
}

// Moves [first, last) before this node.
void _List_node_base::_M_transfer(_List_node_base *const first, _List_node_base *const last) noexcept {
  if (this == last || first == last) return;
  _List_node_base *end = last->_M_prev, *before = first->_M_prev, *mine = _M_prev;
  before->_M_next = last;
  last->_M_prev = before;
  mine->_M_next = first;
  first->_M_prev = mine;
  end->_M_next = this;
  _M_prev = end;
}

void _List_node_base::swap(_List_node_base &a, _List_node_base &b) noexcept {
  if (&a == &b) return;
  bool is_a = a._M_next != &a, is_b = b._M_next != &b;
  _List_node_base *a_next = a._M_next, *a_last = a._M_prev, *b_next = b._M_next, *b_last = b._M_prev;
  if (is_b) {
    a._M_next = b_next, a._M_prev = b_last;
    b_next->_M_prev = b_last->_M_next = &a;
  } else {
    a._M_next = a._M_prev = &a;
  }
  if (is_a) {
    b._M_next = a_next, b._M_prev = a_last;
    a_next->_M_prev = a_last->_M_next = &b;
  } else {
    b._M_next = b._M_prev = &b;
  }
}
}  // namespace __detail
}  // namespace std
