/* What PostgreSQL's planner learns of unions: what a function costs, which part of the rows it finds, and that the
 * index of its operator finds them. ANALYZE keeps what this takes: how large the values are, also those that are
 * compressed or kept out of line, and a sample of them, each as a covering with few cells. */
#include "postgres.h"

#include "access/detoast.h"
#include "access/genam.h"
#include "access/htup_details.h"
#include "access/table.h"
#include "catalog/pg_language.h"
#include "catalog/pg_proc.h"
#include "catalog/pg_statistic.h"
#include "catalog/pg_type.h"
#include "commands/vacuum.h"
#include "miscadmin.h"
#include "nodes/makefuncs.h"
#include "nodes/nodeFuncs.h"
#include "nodes/pathnodes.h"
#include "nodes/supportnodes.h"
#include "optimizer/optimizer.h"
#include "optimizer/pathnode.h"
#include "utils/builtins.h"
#include "utils/datum.h"
#include "utils/fmgroids.h"
#include "utils/lsyscache.h"
#include "utils/sampling.h"
#include "utils/selfuncs.h"
#include "utils/syscache.h"

#include "value.h"

/* What some versions of PostgreSQL declare in another way. */
#if PG_VERSION_NUM >= 180000
#define vacuum_delay_point() vacuum_delay_point(true)
#endif
#if PG_VERSION_NUM < 170000
#define attstattarget attr->attstattarget
#endif

/* ---- what ANALYZE keeps ---- */

/* The kind of the slot of pg_statistic, a number for private use, and its numbers: means over the rows. */
enum { KIND = 21298, CELLS = 0, CELLS_PACKED = 1, OUT_OF_LINE = 2, NUMBERS = 3, MOST_CELLS_OF_SAMPLE = 64 };

typedef struct Standard {
  AnalyzeAttrComputeStatsFunc compute;
  void* extra;
} Standard;

static double mean(double sum, int n) {
  return n > 0 ? sum / n : 0;
}

/* The sizes of the values; answers how many there are. */
static int measure(VacAttrStats* stats, AnalyzeAttrFetchFunc fetch, int rows, float4* numbers) {
  double cells = 0, packed = 0, out_of_line = 0;
  int n = 0;
  for (int k = 0; k < rows; k++) {
    bool null = false;
    struct varlena* value = (struct varlena*)DatumGetPointer(fetch(stats, k, &null));
    vacuum_delay_point();
    if (null) continue;
    double of_this = (Max(toast_raw_datum_size(PointerGetDatum(value)), HEAD) - HEAD) / sizeof(uint64_t);
    n++;
    cells += of_this;
    packed += VARATT_IS_EXTERNAL(value) || VARATT_IS_COMPRESSED(value) ? of_this : 0;
    out_of_line += VARATT_IS_EXTERNAL(value) ? 1 : 0;
  }
  numbers[CELLS] = mean(cells, n);
  numbers[CELLS_PACKED] = mean(packed, n);
  numbers[OUT_OF_LINE] = mean(out_of_line, n);
  return n;
}

/* Some of the values, each as a covering with few cells, and each with the same chance. Answers how many. */
static int sampled(VacAttrStats* stats, AnalyzeAttrFetchFunc fetch, int rows, int values, Datum* sample, int most) {
  int n = 0;
  for (int k = 0, left = values; k < rows; k++) {
    bool null = false;
    Datum value = fetch(stats, k, &null);
    vacuum_delay_point();
    if (null || anl_random_fract() * left-- >= most - n) continue;
    S2Union* u = s2union_value(value);
    MemoryContext context = MemoryContextSwitchTo(stats->anl_context);
    sample[n++] = PointerGetDatum(s2union_covering(u, MOST_CELLS_OF_SAMPLE));
    MemoryContextSwitchTo(context);
    if ((Pointer)u != DatumGetPointer(value)) pfree(u);
  }
  return n;
}

static void compute(VacAttrStats* stats, AnalyzeAttrFetchFunc fetch, int rows, double total) {
  Standard* standard = stats->extra_data;
  int slot = 0, most = Max(stats->attstattarget, 1);
  stats->extra_data = standard->extra;
  standard->compute(stats, fetch, rows, total);
  stats->extra_data = standard;
  while (slot < STATISTIC_NUM_SLOTS && stats->stakind[slot] != 0) slot++;
  if (slot == STATISTIC_NUM_SLOTS || !stats->stats_valid) return;
  float4* numbers = MemoryContextAlloc(stats->anl_context, NUMBERS * sizeof *numbers);
  Datum* sample = MemoryContextAlloc(stats->anl_context, most * sizeof *sample);
  int values = measure(stats, fetch, rows, numbers);
  if (values == 0) return;
  stats->stakind[slot] = KIND;
  stats->stanumbers[slot] = numbers;
  stats->numnumbers[slot] = NUMBERS;
  stats->stavalues[slot] = sample;
  stats->numvalues[slot] = sampled(stats, fetch, rows, values, sample, most);
}

PG_FUNCTION_INFO_V1(s2union_typanalyze);
Datum s2union_typanalyze(PG_FUNCTION_ARGS) {
  VacAttrStats* stats = (VacAttrStats*)PG_GETARG_POINTER(0);
  if (!std_typanalyze(stats)) PG_RETURN_BOOL(false);
  Standard* standard = palloc(sizeof *standard);
  *standard = (Standard){stats->compute_stats, stats->extra_data};
  stats->compute_stats = compute;
  stats->extra_data = standard;
  PG_RETURN_BOOL(true);
}

/* ---- costs, in steps of cpu_operator_cost, some 10 ns ---- */

/* A value is checked when it is read, a step for each cell; one that is compressed or out of line is first unpacked and
 * fetched. A column without statistics counts as one of large values: a needless use of an index costs little. */
static const double PER_CALL = 15, PER_CELL = 0.2, PER_CELL_PACKED = 4, PER_FETCH = 1000, UNKNOWN = 1000;

static double cost_of_cells(double cells, double packed, double out_of_line) {
  return PER_CELL * cells + PER_CELL_PACKED * packed + PER_FETCH * out_of_line;
}

static double cost_of_constant(const Const* c) {
  if (c->constisnull) return 0;
  return cost_of_cells(toast_raw_datum_size(c->constvalue) / sizeof(uint64_t), 0, 0);
}

static bool is_small(Node* node) { return get_typlen(exprType(node)) > 0; } /* a cell, a level, .. */

/* What it costs to read an argument. */
static double cost_to_read(PlannerInfo* root, Node* node) {
  double cost = UNKNOWN;
  VariableStatData variable;
  AttStatsSlot slot;
  if (is_small(node)) return 0;
  if (IsA(node, Const)) return cost_of_constant((Const*)node);
  if (IsA(node, FuncExpr) && list_length(((FuncExpr*)node)->args) == 1 && is_small(linitial(((FuncExpr*)node)->args)))
    return PER_CELL; /* of one cell */
  if (root == NULL) return cost;
  examine_variable(root, node, 0, &variable);
  if (HeapTupleIsValid(variable.statsTuple) &&
      get_attstatsslot(&slot, variable.statsTuple, KIND, InvalidOid, ATTSTATSSLOT_NUMBERS)) {
    if (slot.nnumbers == NUMBERS)
      cost = cost_of_cells(slot.numbers[CELLS], slot.numbers[CELLS_PACKED], slot.numbers[OUT_OF_LINE]);
    free_attstatsslot(&slot);
  }
  ReleaseVariableStats(variable);
  return cost;
}

static List* arguments_of(Node* call) {
  if (call && IsA(call, FuncExpr)) return ((FuncExpr*)call)->args;
  if (call && IsA(call, OpExpr)) return ((OpExpr*)call)->args;
  return NIL;
}

/* A constant of a question is read once for all rows. */
static void tell_cost(SupportRequestCost* request) {
  ListCell* cell;
  List* arguments = arguments_of(request->node);
  bool asks = get_func_rettype(request->funcid) == BOOLOID;
  double each = PER_CALL + (arguments == NIL ? UNKNOWN : 0), once = 0;
  foreach (cell, arguments) {
    double cost = cost_to_read(request->root, lfirst(cell));
    *(asks && IsA(lfirst(cell), Const) ? &once : &each) += cost;
  }
  request->startup = once * cpu_operator_cost;
  request->per_tuple = each * cpu_operator_cost;
}

/* ---- which part of the rows is found ---- */

static int32_t within(const uint64_t* xs, size_t nx, const uint64_t* ys, size_t ny) {
  return s2u_contains(ys, ny, xs, nx);
}

/* The name in C of the function that one of SQL is; NULL if it isn't in C. Another name in SQL doesn't change it. */
static char* name_in_c(Oid function) {
  bool null = true;
  HeapTuple row = SearchSysCache1(PROCOID, ObjectIdGetDatum(function));
  if (!HeapTupleIsValid(row)) return NULL;
  bool is_in_c = ((Form_pg_proc)GETSTRUCT(row))->prolang == ClanguageId;
  Datum name = is_in_c ? SysCacheGetAttr(PROCOID, row, Anum_pg_proc_prosrc, &null) : (Datum)0;
  char* copy = null ? NULL : TextDatumGetCString(name);
  ReleaseSysCache(row);
  return copy;
}

static const struct {
  const char* function;
  question* ask;
} asked_by[] = {{"s2union_contains", s2u_contains},          {"s2union_contains_cell", s2u_contains},
                {"s2union_within", within},                  {"s2union_cell_within", within},
                {"s2union_intersects", s2u_intersects},      {"s2union_intersects_cell", s2u_intersects},
                {"s2union_cell_intersects", s2u_intersects}};

/* The question that a function asks, or NULL. */
static question* question_of(Oid function) {
  char* name = name_in_c(function);
  for (size_t k = 0; name && k < lengthof(asked_by); k++)
    if (strcmp(name, asked_by[k].function) == 0) return asked_by[k].ask;
  return NULL;
}

enum { MOST_OF_SAMPLE = 1000 };

/* Values that an argument may have: all of them, if it is a constant. */
typedef struct Sample {
  int n;
  const S2Union* of[MOST_OF_SAMPLE];
  double not_null;
  bool constant;
} Sample;

static void take(Sample* s, const S2Union* u) {
  if (u != NULL) s->of[s->n++] = u;
}

/* The values of a slot are in the order of the rows or of the numbers, so those that are taken are spread over it. A
 * column of cells has two slots. */
static void take_slot(Sample* s, VariableStatData* variable, int kind, bool of_cells) {
  AttStatsSlot slot;
  if (!get_attstatsslot(&slot, variable->statsTuple, kind, InvalidOid, ATTSTATSSLOT_VALUES)) return;
  int taken = Min(slot.nvalues, of_cells ? MOST_OF_SAMPLE / 2 : MOST_OF_SAMPLE);
  for (int k = 0; k < taken; k++) {
    Datum value = slot.values[k * slot.nvalues / taken];
    if (!of_cells) take(s, s2union_value(datumCopy(value, false, -1)));
    else if (slot.valuetype == INT8OID) take(s, s2union_of_cell(DatumGetInt64(value)));
  }
  free_attstatsslot(&slot);
}

/* A cell that is made a union is as good as the cell. */
static Node* without_cast(Node* node) {
  if (IsA(node, RelabelType)) return without_cast((Node*)((RelabelType*)node)->arg);
  if (!IsA(node, FuncExpr) || list_length(((FuncExpr*)node)->args) != 1) return node;
  Node* inner = linitial(((FuncExpr*)node)->args);
  return exprType(inner) == INT8OID ? inner : node;
}

/* A constant is trusted as little as a stored value: whoever may create an operator of other types may name s2union_sel
 * in it. */
static void take_constant(Sample* s, const Const* c) {
  s->constant = true;
  s->not_null = c->constisnull ? 0 : 1;
  if (c->constisnull) return;
  if (c->consttype == INT8OID) take(s, s2union_of_cell(DatumGetInt64(c->constvalue)));
  else if (c->constlen == -1) take(s, s2union_value(c->constvalue));
}

static void take_variable(PlannerInfo* root, Sample* s, Node* node, int relation, Oid function) {
  VariableStatData variable;
  bool of_cells = exprType(node) == INT8OID;
  examine_variable(root, node, relation, &variable);
  if (HeapTupleIsValid(variable.statsTuple)) {
    s->not_null = 1 - ((Form_pg_statistic)GETSTRUCT(variable.statsTuple))->stanullfrac;
    if (statistic_proc_security_check(&variable, function)) {
      take_slot(s, &variable, of_cells ? STATISTIC_KIND_HISTOGRAM : KIND, of_cells);
      if (of_cells) take_slot(s, &variable, STATISTIC_KIND_MCV, true);
    }
  }
  ReleaseVariableStats(variable);
}

static Sample* sample_of(PlannerInfo* root, Node* node, int relation, Oid function) {
  Sample* s = palloc0(sizeof *s);
  s->not_null = 1;
  node = without_cast(estimate_expression_value(root, node));
  if (IsA(node, Const)) take_constant(s, (Const*)node);
  else take_variable(root, s, node, relation, function);
  return s;
}

/* The part of all pairs for which a question holds. It is asked of all values if one of the arguments is a constant,
 * and else of as many pairs, of which those of a value with itself, in one column, say nothing. If it
 * holds for none, there may still be some. */
static const double DEFAULT = 0.001, LEAST = 0.0001;

static double part_of(question* ask, const Sample* x, const Sample* y) {
  bool constant = x->constant || y->constant;
  int pairs = 0, yes = 0, each = constant ? MOST_OF_SAMPLE : 32;
  int step_x = Max(x->n / each, 1), step_y = Max(y->n / each, 1);
  for (int a = 0; a < x->n; a += step_x) {
    for (int b = 0; b < y->n; b += step_y) {
      if (!constant && s2u_compare(LIST(x->of[a]), LIST(y->of[b])) == 0) continue;
      yes += ask(LIST(x->of[a]), LIST(y->of[b])) == 1;
      pairs++;
    }
  }
  return (pairs == 0 ? DEFAULT : Max(LEAST, (double)yes / pairs)) * x->not_null * y->not_null;
}

/* If a column is known and nothing of the other side, that one may be a value like those of the column. A constant says
 * nothing of a column without statistics. */
static double part_for(PlannerInfo* root, Oid function, question* ask, List* arguments, int relation) {
  if (ask == NULL || list_length(arguments) != 2) return DEFAULT;
  Sample* x = sample_of(root, linitial(arguments), relation, function);
  Sample* y = sample_of(root, lsecond(arguments), relation, function);
  bool constant = x->constant || y->constant;
  if (x->n == 0 && !constant && !is_small(linitial(arguments))) memcpy(x->of, y->of, sizeof x->of), x->n = y->n;
  if (y->n == 0 && !constant && !is_small(lsecond(arguments))) memcpy(y->of, x->of, sizeof y->of), y->n = x->n;
  return part_of(ask, x, y);
}

/* The part for which a question holds of the arguments of a function. The planner asks this for each element of a
 * constant array, of which there may be millions: so it can be cancelled, and no sample stays in memory. */
static double part_found(PlannerInfo* root, Oid function, question* ask, List* arguments, int relation) {
  MemoryContext samples = AllocSetContextCreate(CurrentMemoryContext, "s2union samples", ALLOCSET_DEFAULT_SIZES);
  MemoryContext context = MemoryContextSwitchTo(samples);
  CHECK_FOR_INTERRUPTS();
  double part = part_for(root, function, ask, arguments, relation);
  MemoryContextSwitchTo(context);
  MemoryContextDelete(samples);
  return part;
}

static double selectivity(PlannerInfo* root, Oid function, List* arguments, int relation) {
  return part_found(root, function, question_of(function), arguments, relation);
}

/* The part of the outer rows that have a match among the inner ones, if of all pairs this part matches. It is a power,
 * and the extension wants nothing but the server's calls. */
static double part_with_a_match(double pairs, double inner) {
  double none = 1, miss = 1 - pairs;
  for (uint64 n = (uint64)Min(inner, 1e18); n > 0; n /= 2, miss *= miss)
    if (n != n / 2 * 2) none *= miss;
  return 1 - none;
}

/* What a join is answered: the part of the pairs, or that of the outer rows that have a match, as in EXISTS. */
static double part_of_join(PlannerInfo* root, double pairs, JoinType type, const SpecialJoinInfo* join) {
  if (type != JOIN_SEMI && type != JOIN_ANTI) return pairs;
  Relids inner = join->min_righthand;
  bool one = bms_membership(inner) == BMS_SINGLETON;
  RelOptInfo* relation = one ? find_base_rel(root, bms_singleton_member(inner)) : find_join_rel(root, inner);
  return relation ? part_with_a_match(pairs, relation->rows) : pairs;
}

PG_FUNCTION_INFO_V1(s2union_sel);
Datum s2union_sel(PG_FUNCTION_ARGS) {
  PlannerInfo* root = (PlannerInfo*)PG_GETARG_POINTER(0);
  List* arguments = (List*)PG_GETARG_POINTER(2);
  PG_RETURN_FLOAT8(selectivity(root, get_opcode(PG_GETARG_OID(1)), arguments, PG_GETARG_INT32(3)));
}

PG_FUNCTION_INFO_V1(s2union_joinsel);
Datum s2union_joinsel(PG_FUNCTION_ARGS) {
  PlannerInfo* root = (PlannerInfo*)PG_GETARG_POINTER(0);
  const SpecialJoinInfo* join = (SpecialJoinInfo*)PG_GETARG_POINTER(4);
  double pairs = selectivity(root, get_opcode(PG_GETARG_OID(1)), (List*)PG_GETARG_POINTER(2), 0);
  PG_RETURN_FLOAT8(part_of_join(root, pairs, (JoinType)PG_GETARG_INT16(3), join));
}

/* ---- a function finds the rows that its operator finds, by the same index ---- */

enum { STRATEGIES = 5 };

/* The operator of an operator family for a function of an indexed argument and another: the one that calls it, or whose
 * commutator does. */
static Oid operator_of(Oid family, Oid function, int indexed) {
  Oid* types = NULL;
  int count = 0;
  get_func_signature(function, &types, &count);
  for (int strategy = 1; count == 2 && strategy <= STRATEGIES; strategy++) {
    Oid operator = get_opfamily_member(family, types[indexed], types[1 - indexed], strategy);
    Oid called = OidIsValid(operator) && indexed == 1 ? get_commutator(operator) : operator;
    if (OidIsValid(called) && get_opcode(called) == function) return operator;
  }
  return InvalidOid;
}

static bool is_in_c(Oid function, const char* name) {
  char* own = name_in_c(function);
  return own && strcmp(own, name) == 0;
}

/* The function in a schema of one argument, by its name in C; InvalidOid if there is none. Its name in SQL is the same,
 * unless somebody has changed it. */
static Oid function_in_c(Oid schema, const char* name, Oid type) {
  Oid found = GetSysCacheOid3(PROCNAMEARGSNSP, Anum_pg_proc_oid, CStringGetDatum(name),
                              PointerGetDatum(buildoidvector(&type, 1)), ObjectIdGetDatum(schema));
  if (is_in_c(found, name)) return found;
  ScanKeyData key;
  ScanKeyInit(&key, Anum_pg_proc_pronamespace, BTEqualStrategyNumber, F_OIDEQ, ObjectIdGetDatum(schema));
  Relation functions = table_open(ProcedureRelationId, AccessShareLock);
  SysScanDesc scan = systable_beginscan(functions, InvalidOid, false, NULL, 1, &key);
  HeapTuple row = NULL;
  found = InvalidOid;
  while (!OidIsValid(found) && HeapTupleIsValid(row = systable_getnext(scan))) {
    Form_pg_proc it = (Form_pg_proc)GETSTRUCT(row);
    if (it->pronargs == 1 && it->proargtypes.values[0] == type && is_in_c(it->oid, name)) found = it->oid;
  }
  systable_endscan(scan);
  table_close(functions, AccessShareLock);
  return found;
}

/* A comparison of an indexed leaf with the edge of a union, or NULL if the index can't compare so. */
static Expr* compared_with_edge(SupportRequestIndexCondition* request, Expr* leaf, Expr* u, int strategy,
                                const char* edge) {
  Oid operator = get_opfamily_member(request->opfamily, INT8OID, INT8OID, strategy), type = exprType((Node*)u);
  Oid compares = strategy == BTLessEqualStrategyNumber ? F_INT8LE : F_INT8GE;
  Oid function = function_in_c(get_func_namespace(request->funcid), edge, type);
  if (!OidIsValid(operator) || get_opcode(operator) != compares || !OidIsValid(function)) return NULL;
  Expr* at = (Expr*)makeFuncExpr(function, INT8OID, list_make1(u), InvalidOid, InvalidOid, COERCE_EXPLICIT_CALL);
  at = (Expr*)eval_const_expressions(request->root, (Node*)at);
  return make_opclause(operator, BOOLOID, false, leaf, at, InvalidOid, InvalidOid);
}

/* Whether a cell lies between the least leaf of a union and its greatest, and the same with the union first. */
static int32_t between(const uint64_t* xs, size_t nx, const uint64_t* ys, size_t ny) {
  if (nx == 0 || ny == 0) return 0;
  return edge_of(ys, ny, true) <= (int64)xs[0] && (int64)xs[0] <= edge_of(ys, ny, false);
}
static int32_t around(const uint64_t* xs, size_t nx, const uint64_t* ys, size_t ny) {
  return between(ys, ny, xs, nx);
}

/* Both comparisons, as often as tells the planner which part of the index lies between the edges. It takes each
 * comparison with a value of another table for a third of the index, and rather reads the table than a ninth of the
 * index, once there are further conditions. The index drops all comparisons that stand twice. */
static List* counted(SupportRequestIndexCondition* request, Expr* least, Expr* greatest) {
  const double of_pair = 1.0 / 9;
  List* pairs = list_make2(least, greatest);
  if (!contain_var_clause(lsecond(((OpExpr*)least)->args))) return pairs;
  question* ask = request->indexarg == 0 ? between : around;
  double part = part_found(request->root, request->funcid, ask, arguments_of(request->node), 0);
  for (double so_far = of_pair; so_far / 3 > Max(part, LEAST); so_far *= of_pair)
    pairs = lappend(lappend(pairs, copyObject(least)), copyObject(greatest));
  return pairs;
}

/* A leaf that lies in a union lies between its least leaf and its greatest, which an index of leaves is asked for. So
 * does any cell in it. The rows that are found are looked at. */
static List* conditions_of_leaves(SupportRequestIndexCondition* request, Expr* indexed, Expr* other) {
  question* ask = question_of(request->funcid);
  bool asks = ask == (request->indexarg == 0 ? within : s2u_contains);
  if (!asks || exprType((Node*)indexed) != INT8OID) return NIL;
  Expr* least = compared_with_edge(request, indexed, other, BTGreaterEqualStrategyNumber, "s2union_least");
  Expr* greatest = compared_with_edge(request, indexed, other, BTLessEqualStrategyNumber, "s2union_greatest");
  if (least == NULL || greatest == NULL) return NIL;
  request->lossy = true;
  return counted(request, least, greatest);
}

static List* conditions(SupportRequestIndexCondition* request) {
  List* arguments = arguments_of(request->node);
  if (list_length(arguments) != 2) return NIL;
  Expr *indexed = list_nth(arguments, request->indexarg), *other = list_nth(arguments, 1 - request->indexarg);
  Oid operator = operator_of(request->opfamily, request->funcid, request->indexarg);
  if (!is_pseudo_constant_for_index(request->root, (Node*)other, request->index)) return NIL;
  if (!OidIsValid(operator)) return conditions_of_leaves(request, indexed, other);
  request->lossy = false;
  return list_make1(make_opclause(operator, BOOLOID, false, indexed, other, InvalidOid, request->indexcollation));
}

/* ---- what the planner asks of a function ---- */

PG_FUNCTION_INFO_V1(s2union_support);
Datum s2union_support(PG_FUNCTION_ARGS) {
  Node* request = (Node*)PG_GETARG_POINTER(0);
  if (IsA(request, SupportRequestCost)) {
    tell_cost((SupportRequestCost*)request);
    PG_RETURN_POINTER(request);
  }
  if (IsA(request, SupportRequestSelectivity)) {
    SupportRequestSelectivity* asked = (SupportRequestSelectivity*)request;
    if (question_of(asked->funcid) == NULL) PG_RETURN_POINTER(NULL);
    double part = selectivity(asked->root, asked->funcid, asked->args, asked->is_join ? 0 : asked->varRelid);
    asked->selectivity = asked->is_join ? part_of_join(asked->root, part, asked->jointype, asked->sjinfo) : part;
    PG_RETURN_POINTER(request);
  }
  if (IsA(request, SupportRequestIndexCondition))
    PG_RETURN_POINTER(conditions((SupportRequestIndexCondition*)request));
  PG_RETURN_POINTER(NULL);
}
