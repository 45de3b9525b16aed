// A plugin of gcc. Accesses are told before the text is optimised, so that none is lost; what the optimiser then puts into its
// caller needs no hooks. Ahead of -fsanitize=thread, which looks at assignments alone, three kinds of statements are changed:
//   - a call that takes or gives a whole structure is split, so that its loads and its store are assignments:
//     `g = f (h);` becomes `t = h; u = f (t); g = u;`;
//   - `__builtin_memset` and others by such names become calls of the functions that the runtime models;
//   - the processor's own operations on memory (streams, masks, gathers) and inline assembly get a call of the runtime.
// A version of gcc takes only plugins that were compiled with its own headers (package gcc-N-plugin-dev).
#include "gcc-plugin.h"
#include "plugin-version.h"
#include "tree.h"
#include "gimple.h"
#include "tree-pass.h"
#include "context.h"
#include "gimple-iterator.h"
#include "gimplify.h"
#include "gimple-expr.h"
#include "ssa.h"
#include "tree-ssa.h"
#include "tree-dfa.h"
#include "cfg.h"
#include "tree-cfg.h"
#include "tree-eh.h"
#include "stringpool.h"
#include "attribs.h"
#include "asan.h"
#include "cgraph.h"
#include "tree-into-ssa.h"
#include "gimple-walk.h"
#include <set>
#include <string>
#include <tuple>
#include <vector>

int plugin_is_GPL_compatible;

static std::set<std::string> models;  // functions by whose names calls are recorded

static bool is_all_told;   // CILKREC_NO_INLINE: none is left out
static bool has_reducers;  // by keyword: what reads and what updates them goes by the order of their accesses

static pass_data data(const char *name, unsigned after) {
  return {GIMPLE_PASS, name, OPTGROUP_NONE, TV_NONE, PROP_cfg | PROP_ssa, 0, 0, 0, TODO_update_ssa | after};
}

static bool has(const std::string &text, const char *part) { return text.find(part) != std::string::npos; }
static bool begins(const std::string &text, const char *part) { return text.compare(0, strlen(part), part) == 0; }

static std::string name_of(tree f) {
  std::string name = f && DECL_NAME(f) ? IDENTIFIER_POINTER(DECL_NAME(f)) : "";
  return begins(name, "__builtin_") ? name.substr(10) : name;
}

// The name of the function that a statement calls, or none.
static std::string name_of(gimple *s) { return is_gimple_call(s) ? name_of(gimple_call_fndecl(s)) : ""; }

// Of a told access its bytes, doubled, and 1 more for a write; else 0.
static int access_of(gimple *s) {
  std::string name = name_of(s);
  if (!begins(name, "__tsan_")) return 0;
  name = name.substr(begins(name, "__tsan_unaligned_") ? 17 : 7);
  size_t digits = begins(name, "read") ? 4 : begins(name, "write") ? 5 : 0;
  return digits && isdigit(name[digits]) ? atoi(name.c_str() + digits) << 1 | (digits == 5) : 0;
}

static void remove(gimple_stmt_iterator *i) {
  gimple *s = gsi_stmt(*i);
  unlink_stmt_vdef(s);
  gsi_remove(i, true);
  release_defs(s);
}

struct calls : gimple_opt_pass {
  calls(gcc::context *c) : gimple_opt_pass(data("calls", 0), c) {}

  // A call of the runtime before a statement.
  static void tell(gimple_stmt_iterator *i, const char *name, tree address, tree bytes) {
    tree type = address ? build_function_type_list(void_type_node, ptr_type_node, size_type_node, NULL_TREE)
                        : build_function_type_list(void_type_node, NULL_TREE);
    tree function = build_fn_decl(name, type);
    gcall *call = address ? gimple_build_call(function, 2, address, bytes) : gimple_build_call(function, 0);
    gimple_set_location(call, gimple_location(gsi_stmt(*i)));
    gsi_insert_before(i, call, GSI_SAME_STMT);
  }

  static unsigned bytes_of(tree type) { return (unsigned)tree_to_uhwi(TYPE_SIZE_UNIT(type)); }

  // A load or store by a mask, or a gather: its elements are told. Whether it is one.
  static bool elements(gimple_stmt_iterator *i, gimple *s, const std::string &name) {
    bool is_gather = has(name, "_gather"), is_load = has(name, "maskload");
    unsigned k = is_gather ? 3 : 1;
    if ((!is_gather && !is_load && !has(name, "maskstore") && !has(name, "maskmovdqu")) || gimple_call_num_args(s) <= k)
      return false;
    tree mask = gimple_call_arg(s, k), type = TREE_TYPE(mask);
    tree pointer = gimple_call_arg(s, is_gather ? 1 : has(name, "maskmovdqu") ? 2 : 0);
    if (!VECTOR_TYPE_P(type) || !POINTER_TYPE_P(TREE_TYPE(pointer)) || bytes_of(type) > 32) return false;
    unsigned how = bytes_of(TREE_TYPE(type)), bits = 8 * bytes_of(type);
    gcall *call;
    if (is_gather) {
      tree index = gimple_call_arg(s, 2), scale = gimple_call_arg(s, 4), itype = TREE_TYPE(index);
      if (!VECTOR_TYPE_P(itype) || TREE_CODE(scale) != INTEGER_CST) return false;
      unsigned n = std::min(bytes_of(type) / how, bytes_of(itype) / bytes_of(TREE_TYPE(itype)));
      how |= bytes_of(TREE_TYPE(itype)) << 8 | (unsigned)tree_to_uhwi(scale) << 16 | n << 24;
      std::string tell = "cilkrec_gather_" + std::to_string(8 * bytes_of(itype)) + "_" + std::to_string(bits);
      tree t = build_function_type_list(void_type_node, ptr_type_node, itype, type, size_type_node, NULL_TREE);
      call = gimple_build_call(build_fn_decl(tell.c_str(), t), 4, pointer, index, mask, build_int_cst(size_type_node, how));
    } else {
      how |= is_load ? 0 : 1 << 8;
      std::string tell = "cilkrec_masked_" + std::to_string(bits);
      tree t = build_function_type_list(void_type_node, ptr_type_node, type, size_type_node, NULL_TREE);
      call = gimple_build_call(build_fn_decl(tell.c_str(), t), 3, pointer, mask, build_int_cst(size_type_node, how));
    }
    gimple_set_location(call, gimple_location(s));
    gsi_insert_before(i, call, GSI_SAME_STMT);
    return true;
  }

  // An operation of the processor with a pointer among its arguments: told by its size where that is plain.
  static void vector(gimple_stmt_iterator *i, gimple *s, const std::string &name) {
    if (has(name, "clflush") || has(name, "clwb") || has(name, "monitor") || has(name, "prefetch")) return;
    if (elements(i, s, name)) return;
    tree pointer = NULL_TREE, value = NULL_TREE;
    for (unsigned k = 0; k < gimple_call_num_args(s); k++) {
      tree a = gimple_call_arg(s, k);
      if (POINTER_TYPE_P(TREE_TYPE(a))) pointer = a;
      else value = a;
    }
    if (!pointer) return;
    tree result = gimple_call_lhs(s), type = NULL_TREE;
    const char *hook = "__tsan_write_range";
    if (has(name, "mask") || has(name, "gather") || has(name, "scatter")) {
    } else if (has(name, "movnt") && !has(name, "movntdqa")) {
      type = value ? TREE_TYPE(value) : NULL_TREE;
    } else if (has(name, "addcarry") || has(name, "sbb") || has(name, "rdrand") || has(name, "rdseed") || has(name, "rdtscp")) {
      type = TREE_TYPE(TREE_TYPE(pointer));
    } else if (has(name, "lddqu") || has(name, "movntdqa")) {
      type = result ? TREE_TYPE(result) : NULL_TREE;
      hook = "__tsan_read_range";
      if (!type) return;
    }
    if (type && TYPE_SIZE_UNIT(type) && TREE_CODE(TYPE_SIZE_UNIT(type)) == INTEGER_CST)
      tell(i, hook, pointer, fold_convert(size_type_node, TYPE_SIZE_UNIT(type)));
    else
      tell(i, "cilkrec_vector_here", NULL_TREE, NULL_TREE);
  }

  static void arguments(gimple_stmt_iterator *i, gimple *s) {
    for (unsigned k = 0; k < gimple_call_num_args(s); k++) {
      tree a = gimple_call_arg(s, k), t = TREE_TYPE(a);
      if (is_gimple_reg_type(t) || TREE_ADDRESSABLE(t) || TREE_CODE(a) == CONSTRUCTOR || !COMPLETE_TYPE_P(t)) continue;
      tree v = create_tmp_var(t, "cilkrec_arg");
      gimple *copy = gimple_build_assign(v, unshare_expr(a));
      gimple_set_location(copy, gimple_location(s));
      gsi_insert_before(i, copy, GSI_SAME_STMT);
      gimple_call_set_arg(s, k, v);
      update_stmt(s);
    }
  }

  // Whether an edge got a statement.
  static bool result(gimple_stmt_iterator *i, gimple *s, basic_block bb) {
    tree l = gimple_call_lhs(s);
    if (!l || is_gimple_reg(l) || TREE_ADDRESSABLE(TREE_TYPE(l)) || !COMPLETE_TYPE_P(TREE_TYPE(l)) ||
        TREE_CODE(TYPE_SIZE_UNIT(TREE_TYPE(l))) != INTEGER_CST)
      return false;
    tree v = create_tmp_var(TREE_TYPE(l), "cilkrec_result");
    gimple *store = gimple_build_assign(l, v);
    gimple_set_location(store, gimple_location(s));
    gimple_call_set_lhs(s, v);
    gimple_call_set_return_slot_opt(as_a<gcall *>(s), false);
    update_stmt(s);
    if (!stmt_ends_bb_p(s)) {
      gsi_insert_after(i, store, GSI_NEW_STMT);
      return false;
    }
    edge e = find_fallthru_edge(bb->succs);
    if (e) gsi_insert_on_edge(e, store);
    return e;
  }

  unsigned execute(function *fun) override {
    basic_block bb;
    bool edges = false;
    FOR_EACH_BB_FN(bb, fun)
      for (gimple_stmt_iterator i = gsi_start_bb(bb); !gsi_end_p(i); gsi_next(&i)) {
        gimple *s = gsi_stmt(i);
        if (gasm *text = dyn_cast<gasm *>(s)) {
          std::string words = gimple_asm_string(text);
          if (words.find_first_not_of(" \t\n;") == std::string::npos) continue;
          gasm *told = gimple_build_asm_vec(  // not a call, since registers may be set for the text
              "leaq -128(%%rsp), %%rsp\n\tcall cilkrec_assembly_here\n\tleaq 128(%%rsp), %%rsp", NULL, NULL, NULL, NULL);
          gimple_asm_set_volatile(told, true);
          gimple_set_location(told, gimple_location(s));
          gsi_insert_before(&i, told, GSI_SAME_STMT);
          continue;
        }
        if (!is_gimple_call(s) || gimple_call_internal_p(s)) continue;
        tree f = gimple_call_fndecl(s);
        if (f && DECL_NAME(f) && fndecl_built_in_p(f)) {
          std::string name = IDENTIFIER_POINTER(DECL_NAME(f));
          if (name.compare(0, 10, "__builtin_") == 0 && fndecl_built_in_p(f, BUILT_IN_NORMAL)) {
            name = name.substr(10);
            if (models.count(name)) {
              gimple_call_set_fndecl(s, build_fn_decl(name.c_str(), TREE_TYPE(f)));
              update_stmt(s);
            }
          } else if (fndecl_built_in_p(f, BUILT_IN_MD)) {
            vector(&i, s, name);
            continue;
          }
        }
        arguments(&i, s);
        edges |= result(&i, s, bb);
      }
    if (edges) gsi_commit_edge_inserts();
    update_ssa(TODO_update_ssa_only_virtuals);
    if (sanitize_flags_p(SANITIZE_THREAD)) accesses->execute(fun);
    if (DECL_EXTERNAL(fun->decl)) keep_apart(fun->decl);  // a library has it compiled: its calls are what is told
    settle(fun);
    return 0;
  }

  opt_pass *accesses = make_pass_tsan(g);

  static bool is_inlined(tree f) { return lookup_attribute("always_inline", DECL_ATTRIBUTES(f)); }

  // A function that isn't put into another one.
  static void keep_apart(tree f) {
    cgraph_node *node = cgraph_node::get(f);
    if (is_inlined(f)) return;
    DECL_UNINLINABLE(f) = 1;
    if (node) DECL_UNINLINABLE(node->ultimate_alias_target()->decl) = 1;
  }

  // What is called from a statement on, up to the spawn's end: it has a frame of its own.
  static void spawned(gimple_stmt_iterator i, std::set<basic_block> &seen) {
    for (; !gsi_end_p(i); gsi_next(&i)) {
      gimple *s = gsi_stmt(i);
      if (!is_gimple_call(s) || gimple_call_internal_p(s)) continue;
      tree f = gimple_call_fndecl(s);
      if (f && name_of(s) == "cilkrec_spawn_end") return;
      if (f) {
        keep_apart(f);
        continue;
      }
      tree pointer = gimple_call_fn(s), v = make_ssa_name(TREE_TYPE(pointer));  // it isn't to be found which function that is
      tree type = build_function_type_list(ptr_type_node, ptr_type_node, NULL_TREE);
      gcall *same = gimple_build_call(build_fn_decl("cilkrec_same", type), 1, pointer);
      gimple_call_set_lhs(same, v);
      gsi_insert_before(&i, same, GSI_SAME_STMT);
      gimple_call_set_fn(as_a<gcall *>(s), v);
      update_stmt(s);
    }
    edge e;
    edge_iterator k;
    FOR_EACH_EDGE(e, k, gsi_bb(i)->succs)
      if (seen.insert(e->dest).second) spawned(gsi_start_bb(e->dest), seen);
  }

  // Functions with marks have frames of their own, and so have those that spawns call.
  static void settle(function *fun) {
    basic_block bb;
    std::set<basic_block> seen;
    FOR_EACH_BB_FN(bb, fun)
      for (gimple_stmt_iterator i = gsi_start_bb(bb), next = i; !gsi_end_p(i); i = next) {
        gsi_next(&next);
        gimple *s = gsi_stmt(i);
        std::string name = name_of(s);
        if (begins(name, "cilkrec_") && !has(name, "_here") && !has(name, "_masked") && !has(name, "_gather"))
          keep_apart(fun->decl);
        has_reducers |= begins(name, "cilkrec_reducer_");
        if ((name == "cilkrec_spawn_begin" || name == "cilkrec_spawn_inside") && !gsi_end_p(next)) spawned(next, seen);
        if (name == "__tsan_atomic8_load" && TREE_CODE(gimple_call_arg(s, 0)) == ADDR_EXPR) {
          tree base = get_base_address(TREE_OPERAND(gimple_call_arg(s, 0), 0));
          if (!base || !DECL_P(base) || !begins(name_of(base), "_ZGV")) continue;
          gimple_call_set_fndecl(s, build_fn_decl("cilkrec_guard_load", TREE_TYPE(gimple_call_fndecl(s))));
          update_stmt(s);
        }
      }
  }
};

// Accesses of variables that only their own function can name aren't told: before inlined ones become registers.
struct locals : gimple_opt_pass {
  locals(gcc::context *c) : gimple_opt_pass(data("locals", TODO_update_address_taken), c) {}

  static bool taken(gimple *, tree base, tree, void *data) {
    static_cast<std::set<tree> *>(data)->insert(base);
    return false;
  }

  unsigned execute(function *fun) override {
    basic_block bb;
    std::set<tree> shared;
    FOR_EACH_BB_FN(bb, fun) {
      for (gphi_iterator i = gsi_start_phis(bb); !gsi_end_p(i); gsi_next(&i))
        walk_stmt_load_store_addr_ops(i.phi(), &shared, nullptr, nullptr, taken);
      for (gimple_stmt_iterator i = gsi_start_bb(bb); !gsi_end_p(i); gsi_next(&i))
        if (!is_gimple_debug(gsi_stmt(i)) && !access_of(gsi_stmt(i)))
          walk_stmt_load_store_addr_ops(gsi_stmt(i), &shared, nullptr, nullptr, taken);
    }
    FOR_EACH_BB_FN(bb, fun)
      for (gimple_stmt_iterator i = gsi_start_bb(bb), next = i; !gsi_end_p(i); i = next) {
        gsi_next(&next);
        tree at = access_of(gsi_stmt(i)) ? gimple_call_arg(gsi_stmt(i), 0) : NULL_TREE;
        tree base = at && TREE_CODE(at) == ADDR_EXPR ? get_base_address(TREE_OPERAND(at, 0)) : NULL_TREE;
        if (base && TREE_CODE(base) == MEM_REF && TREE_CODE(TREE_OPERAND(base, 0)) == ADDR_EXPR)
          base = get_base_address(TREE_OPERAND(TREE_OPERAND(base, 0), 0));
        if (base && DECL_P(base) && auto_var_in_fn_p(base, fun->decl) && !shared.count(base)) remove(&i);
      }
    return 0;
  }
};

// What a function that was put into another one brings: it has no frame there, so no hooks. At the end also accesses that
// are repeated, or followed by a write of the same bytes, with nothing but other accesses between.
struct repeats : gimple_opt_pass {
  repeats(gcc::context *c, bool is_last) : gimple_opt_pass(data("repeats", TODO_cleanup_cfg), c), is_last(is_last) {}
  bool is_last;

  // A pointer or variable, how far from it, and what `access_of` says.
  typedef std::tuple<tree, long, int> key;

  static key key_of(gimple *s) {
    int what = access_of(s);
    tree at = gimple_call_arg(s, 0), base;
    ao_ref place;
    ao_ref_init_from_ptr_and_size(&place, at, size_int(what >> 1));
    if (!place.max_size_known_p()) return key(at, 0, what);
    long moved = place.offset.coeffs[0] / BITS_PER_UNIT;
    if (TREE_CODE(base = place.base) != MEM_REF) return key(base, moved, what);
    return key(TREE_OPERAND(base, 0), moved + mem_ref_offset(base).force_shwi().coeffs[0], what);
  }

  // Whether a statement may begin a strand: calls, but for those of accesses and for the compiler's own.
  static bool ends(gimple *s) {
    tree f = is_gimple_call(s) ? gimple_call_fndecl(s) : NULL_TREE;
    if (!is_gimple_call(s) || access_of(s)) return gimple_code(s) == GIMPLE_ASM;
    return f ? !fndecl_built_in_p(f) || !(gimple_call_flags(s) & ECF_CONST) : !gimple_call_internal_p(s);
  }

  // Whether an access is known, where these are: before it, or (of writes alone) behind it. A read behind a write stays, since
  // of a reducer it takes the value.
  static bool passes(gimple *s, std::set<key> &known, bool is_backward) {
    if (ends(s)) known.clear();
    if (!access_of(s)) return false;
    key k = key_of(s), read = k, write = k;
    std::get<2>(read) &= ~1, std::get<2>(write) |= 1;
    bool is_write = k == write, is_known = is_backward ? !is_write && known.count(write) : known.count(k);
    if (is_write) known.erase(read);
    if (is_write || !is_backward) known.insert(k);
    return is_known;
  }

  static void drop_repeats(function *fun) {
    basic_block bb;
    std::vector<std::set<key>> after(last_basic_block_for_fn(fun));
    FOR_EACH_BB_FN(bb, fun)
      for (bool is_backward : {true, false}) {
        std::set<key> known;
        if (!is_backward && single_pred_p(bb)) known = after[single_pred(bb)->index];
        for (gimple_stmt_iterator i = is_backward ? gsi_last_bb(bb) : gsi_start_bb(bb), next = i; !gsi_end_p(i); i = next) {
          is_backward ? gsi_prev(&next) : gsi_next(&next);
          if (passes(gsi_stmt(i), known, is_backward)) remove(&i);
        }
        if (!is_backward) after[bb->index] = known;
      }
  }

  // Whether a hook is that of another function, which has none where it is.
  static bool is_foreign(gimple *s, tree f) {
    if (!begins(name_of(s), "__cyg_profile_func_") || TREE_CODE(gimple_call_arg(s, 0)) != ADDR_EXPR) return false;
    tree of = TREE_OPERAND(gimple_call_arg(s, 0), 0);
    std::string own = IDENTIFIER_POINTER(DECL_ASSEMBLER_NAME(f)), other = IDENTIFIER_POINTER(DECL_ASSEMBLER_NAME(of));
    return own != other && !begins(own, (other + ".").c_str()) && !calls::is_inlined(of);
  }

  unsigned execute(function *fun) override {
    basic_block bb;
    FOR_EACH_BB_FN(bb, fun)
      for (gimple_stmt_iterator i = gsi_start_bb(bb), next = i; !gsi_end_p(i); i = next) {
        gsi_next(&next);
        if (is_foreign(gsi_stmt(i), fun->decl)) remove(&i);
      }
    if (is_last && !has_reducers && !is_all_told) drop_repeats(fun);
    return 0;
  }
};

int plugin_init(plugin_name_args *info, plugin_gcc_version *version) {
  if (!plugin_default_version_check(version, &gcc_version)) return 1;
  for (int k = 0; k < info->argc; k++) {
    is_all_told |= !strcmp(info->argv[k].key, "all");
    std::string word = info->argv[k].value ? info->argv[k].value : "";
    for (size_t from = 0, to; from < word.size(); from = to + 1) {
      to = std::min(word.find(',', from), word.size());
      models.insert(word.substr(from, to - from));
    }
  }
  register_pass_info passes[] = {{new repeats(g, true), "tsan", 1, PASS_POS_REPLACE},
                                 {new repeats(g, true), "tsan0", 1, PASS_POS_REPLACE},
                                 {new calls(g), "ssa", 1, PASS_POS_INSERT_AFTER},
                                 {new repeats(g, false), "einline", 1, PASS_POS_INSERT_AFTER},
                                 {new locals(g), "esra", 1, PASS_POS_INSERT_BEFORE}};
  for (register_pass_info &pass : passes)
    register_callback(info->base_name, PLUGIN_PASS_MANAGER_SETUP, nullptr, &pass);
  return 0;
}
