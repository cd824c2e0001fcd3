/*
 * relaypath: proved calls on relay trees, for C99 and for what can call C.
 * Link with librelaypath.a, which `tests/archive` writes.
 *
 * A graph of n vertices is lent as two arrays of 32-bit numbers: n + 1 offsets
 * and E targets. The list of vertex u is the targets from offsets[u] up to
 * offsets[u + 1], the end excluded. Vertices are 0 to n - 1.
 *
 * What the numbers say is never trusted: each call ends without a fault on any
 * contents. Of the pointers the caller sees to it that
 *   - each is aligned and has as many entries as the length after it says,
 *     and only where that length is 0 may it be null;
 *   - an array that is written (`work`, tables and lists) and each number that is
 *     lent for an answer overlap nothing else that is lent;
 *   - nobody else writes the arrays, or reads those that are written, until the
 *     call returns.
 */
#ifndef RELAYPATH_H
#define RELAYPATH_H

#include <stddef.h>
#include <stdint.h>

#ifdef __cplusplus
extern "C" {
#endif

/* Limits: n is from 1 to RELAYPATH_MAX_VERTICES, E at most RELAYPATH_MAX_TARGETS. */
#define RELAYPATH_MAX_VERTICES 32768
#define RELAYPATH_MAX_TARGETS 65535

/* The entries that `work` needs for n vertices and e targets. */
#define RELAYPATH_WORK_ROOM(n, e) (8 * (size_t)(n) + (size_t)(e))

/* What the parent table holds for the root. */
#define RELAYPATH_NO_PARENT UINT32_C(4294967295)

/* Codes. A call answers that of the first test that is not passed, in this order. */
#define RELAYPATH_DONE 0          /* all tests are passed */
#define RELAYPATH_BAD_SIZE 1      /* fewer than two offsets, n or E above its limit, or a table not of n entries */
#define RELAYPATH_NO_ROOM 2       /* work has fewer than 8n + E entries, or starts or a list has too few */
#define RELAYPATH_BAD_OFFSETS 3   /* the first offset is not 0, an offset falls, or the last is not E */
#define RELAYPATH_BAD_VERTEX 4    /* a target, or a vertex argument of a query, is n or more */
#define RELAYPATH_BAD_ROOT 5      /* the root is n or more */
#define RELAYPATH_NOT_SYMMETRIC 6 /* some v stands in u's list more or less often than u in v's */
#define RELAYPATH_DISCONNECTED 7  /* symmetric, but some vertex is not reached from the root */
#define RELAYPATH_HAS_CYCLE 8     /* symmetric and all reached, but no tree */
#define RELAYPATH_BAD_TABLE 9     /* a query met an entry that is not sound */
#define RELAYPATH_TOO_FAR 10      /* there are fewer steps than were asked for */

/*
 * Judges a graph, seen from root. Answers RELAYPATH_DONE exactly where it is a
 * tree: symmetric lists, exactly one simple path between any two vertices, no
 * vertex in its own list, no entry twice in a list. Otherwise it answers a code
 * from 1 to 8.
 *
 * offsets, targets: read, never written.
 * work: at least RELAYPATH_WORK_ROOM(n, E) entries, of any contents. On the
 *     codes 1 and 2 it is unchanged. On every other answer its first 8n + E
 *     entries are zero afterwards, and the rest is unchanged.
 * Time: proportional to n + E, on every input. It takes no other memory.
 */
uint32_t relaypath_validate_tree(const uint32_t *offsets, size_t offsets_len,
                                 const uint32_t *targets, size_t targets_len,
                                 size_t root,
                                 uint32_t *work, size_t work_len);

/*
 * The heavy-light decomposition of a tree from root. Answers RELAYPATH_DONE
 * exactly where the graph is a tree, as above, and each table has n entries.
 * Otherwise it answers a code from 1 to 8 and writes no table.
 *
 * offsets, targets: read, never written.
 * parent, depth, size: entry v is the parent of vertex v seen from the root
 *     (RELAYPATH_NO_PARENT for the root), its distance from the root, and the
 *     number of vertices in its subtree.
 * id: entry v is the number of vertex v. The root is 0. After a vertex comes
 *     the whole subtree of its heavy child, which is the child of greatest size
 *     (of equals the first in the list), then those of its other children in
 *     reverse list order. So the subtree of v has the numbers from id[v] up to
 *     id[v] + size[v], the end excluded.
 * order: entry i is the vertex with the number i.
 * head: entry v is the top of the chain of heavy children that v is on.
 * work: as above.
 * Time: proportional to n + E, on every input. It takes no other memory.
 */
uint32_t relaypath_try_hld(const uint32_t *offsets, size_t offsets_len,
                           const uint32_t *targets, size_t targets_len,
                           size_t root,
                           uint32_t *parent, size_t parent_len,
                           uint32_t *depth, size_t depth_len,
                           uint32_t *head, size_t head_len,
                           uint32_t *id, size_t id_len,
                           uint32_t *order, size_t order_len,
                           uint32_t *size, size_t size_len,
                           uint32_t *work, size_t work_len);

/*
 * Queries on the six tables of a build. n is parent_len.
 *
 * Each answers RELAYPATH_DONE and writes the answer, or one of
 * RELAYPATH_BAD_SIZE (n is not from 1 to RELAYPATH_MAX_VERTICES, or a table has
 * not n entries), RELAYPATH_BAD_VERTEX, RELAYPATH_BAD_TABLE and
 * RELAYPATH_TOO_FAR, and then leaves the answer as it was. The tables are never
 * written. Tables that a build wrote never give RELAYPATH_BAD_TABLE; on any
 * others each entry that is used is tested first.
 * Time: at most proportional to the logarithm of n. They take no other memory.
 */

/* The number of vertices. */
uint32_t relaypath_vertex_count(const uint32_t *parent, size_t parent_len,
                                const uint32_t *depth, size_t depth_len,
                                const uint32_t *head, size_t head_len,
                                const uint32_t *id, size_t id_len,
                                const uint32_t *order, size_t order_len,
                                const uint32_t *size, size_t size_len,
                                size_t *answer);

/* The root that the tables were built from. */
uint32_t relaypath_root(const uint32_t *parent, size_t parent_len,
                        const uint32_t *depth, size_t depth_len,
                        const uint32_t *head, size_t head_len,
                        const uint32_t *id, size_t id_len,
                        const uint32_t *order, size_t order_len,
                        const uint32_t *size, size_t size_len,
                        size_t *answer);

/* The distance of v from the root. */
uint32_t relaypath_depth(const uint32_t *parent, size_t parent_len,
                         const uint32_t *depth, size_t depth_len,
                         const uint32_t *head, size_t head_len,
                         const uint32_t *id, size_t id_len,
                         const uint32_t *order, size_t order_len,
                         const uint32_t *size, size_t size_len,
                         size_t v,
                         size_t *answer);

/* The number of v. */
uint32_t relaypath_vertex_id(const uint32_t *parent, size_t parent_len,
                             const uint32_t *depth, size_t depth_len,
                             const uint32_t *head, size_t head_len,
                             const uint32_t *id, size_t id_len,
                             const uint32_t *order, size_t order_len,
                             const uint32_t *size, size_t size_len,
                             size_t v,
                             size_t *answer);

/* The number of edges between u and v. */
uint32_t relaypath_distance(const uint32_t *parent, size_t parent_len,
                            const uint32_t *depth, size_t depth_len,
                            const uint32_t *head, size_t head_len,
                            const uint32_t *id, size_t id_len,
                            const uint32_t *order, size_t order_len,
                            const uint32_t *size, size_t size_len,
                            size_t u, size_t v,
                            size_t *answer);

/* The lowest common ancestor of u and v as if r were the root. */
uint32_t relaypath_lca(const uint32_t *parent, size_t parent_len,
                       const uint32_t *depth, size_t depth_len,
                       const uint32_t *head, size_t head_len,
                       const uint32_t *id, size_t id_len,
                       const uint32_t *order, size_t order_len,
                       const uint32_t *size, size_t size_len,
                       size_t r, size_t u, size_t v,
                       size_t *answer);

/* The vertex k steps above v; RELAYPATH_TOO_FAR where there is none. */
uint32_t relaypath_kth_ancestor(const uint32_t *parent, size_t parent_len,
                                const uint32_t *depth, size_t depth_len,
                                const uint32_t *head, size_t head_len,
                                const uint32_t *id, size_t id_len,
                                const uint32_t *order, size_t order_len,
                                const uint32_t *size, size_t size_len,
                                size_t v, size_t k,
                                size_t *answer);

/* The vertex k steps from u on the way to v; RELAYPATH_TOO_FAR where k is more
 * than their distance. */
uint32_t relaypath_jump(const uint32_t *parent, size_t parent_len,
                        const uint32_t *depth, size_t depth_len,
                        const uint32_t *head, size_t head_len,
                        const uint32_t *id, size_t id_len,
                        const uint32_t *order, size_t order_len,
                        const uint32_t *size, size_t size_len,
                        size_t u, size_t v, size_t k,
                        size_t *answer);

/* The number of vertices of v's subtree as if r were the root. */
uint32_t relaypath_subtree_size(const uint32_t *parent, size_t parent_len,
                                const uint32_t *depth, size_t depth_len,
                                const uint32_t *head, size_t head_len,
                                const uint32_t *id, size_t id_len,
                                const uint32_t *order, size_t order_len,
                                const uint32_t *size, size_t size_len,
                                size_t r, size_t v,
                                size_t *answer);

/* The numbers of v's subtree: from *start up to *end, the end excluded. */
uint32_t relaypath_subtree_range(const uint32_t *parent, size_t parent_len,
                                 const uint32_t *depth, size_t depth_len,
                                 const uint32_t *head, size_t head_len,
                                 const uint32_t *id, size_t id_len,
                                 const uint32_t *order, size_t order_len,
                                 const uint32_t *size, size_t size_len,
                                 size_t v,
                                 size_t *start, size_t *end);

/*
 * The path from u to v as ranges of numbers, on the six tables of a build.
 *
 * A range takes three entries of `ranges`: its start, its end (excluded), and its
 * direction, RELAYPATH_FORWARD or RELAYPATH_REVERSED. Read one after the other,
 * a Forward range from its start up, a Reversed one from its end down, the ranges
 * give the path from u to v in order.
 *
 * Answers RELAYPATH_DONE and writes how many ranges there are into *count; the
 * entries past them are unchanged. Refusals are those of the queries, and last
 * RELAYPATH_NO_ROOM where 3 * count is more than ranges_len; then neither the
 * list nor *count is written. relaypath_range_room(n) ranges are always enough.
 * Time: at most proportional to the logarithm of n. They take no other memory.
 */
#define RELAYPATH_FORWARD 0
#define RELAYPATH_REVERSED 1

/* The numbers of the path's vertices. */
uint32_t relaypath_vertex_path_ranges(const uint32_t *parent, size_t parent_len,
                                      const uint32_t *depth, size_t depth_len,
                                      const uint32_t *head, size_t head_len,
                                      const uint32_t *id, size_t id_len,
                                      const uint32_t *order, size_t order_len,
                                      const uint32_t *size, size_t size_len,
                                      size_t u, size_t v,
                                      uint32_t *ranges, size_t ranges_len,
                                      size_t *count);

/* The numbers of the path's edges, each the number of its child. */
uint32_t relaypath_edge_path_ranges(const uint32_t *parent, size_t parent_len,
                                    const uint32_t *depth, size_t depth_len,
                                    const uint32_t *head, size_t head_len,
                                    const uint32_t *id, size_t id_len,
                                    const uint32_t *order, size_t order_len,
                                    const uint32_t *size, size_t size_len,
                                    size_t u, size_t v,
                                    uint32_t *ranges, size_t ranges_len,
                                    size_t *count);

/* Vertices and edges in turn: vertex x is twice its number, and the edge to its
 * parent one less than that. */
uint32_t relaypath_vertex_edge_path_ranges(const uint32_t *parent, size_t parent_len,
                                           const uint32_t *depth, size_t depth_len,
                                           const uint32_t *head, size_t head_len,
                                           const uint32_t *id, size_t id_len,
                                           const uint32_t *order, size_t order_len,
                                           const uint32_t *size, size_t size_len,
                                           size_t u, size_t v,
                                           uint32_t *ranges, size_t ranges_len,
                                           size_t *count);

/* The number of ranges that is enough for every path among n vertices,
 * 2 * floor(log2(n)) + 1; RELAYPATH_BAD_SIZE where n is not from 1 to
 * RELAYPATH_MAX_VERTICES. Time: constant. */
uint32_t relaypath_range_room(size_t n, size_t *answer);

/*
 * The part of two stores that a range names. Both have the same length m, from 1
 * to 32768, one entry to a number, and the second is the first turned round.
 * Answers the part's length and writes into *place where it begins, in the first
 * store for RELAYPATH_FORWARD, in the second for RELAYPATH_REVERSED. So the part
 * is read from its first entry to its last in either direction. Where the stores
 * are no such pair, or not start < end <= m, or the direction is neither, the
 * part is empty: 0, at place 0. The stores are never written.
 */
size_t relaypath_rule_part(const uint32_t *first, size_t first_len,
                           const uint32_t *second, size_t second_len,
                           size_t start, size_t end, uint32_t direction,
                           size_t *place);

/*
 * The centroid decomposition of a tree, the first search starting at vertex 0.
 * Answers RELAYPATH_DONE exactly where the graph is a tree and both tables have n
 * entries. Otherwise it answers a code from 1 to 8 and writes no table.
 *
 * offsets, targets: read, never written.
 * parent: entry v is the centroid whose removal made the component of which v is
 *     the centroid, RELAYPATH_NO_PARENT for the first one.
 * level: entry v is the number of centroids above v, at most log2(n).
 * work: as for relaypath_validate_tree.
 * Time: proportional to n log n. It takes no other memory.
 */
uint32_t relaypath_try_centroid_decomposition(const uint32_t *offsets, size_t offsets_len,
                                              const uint32_t *targets, size_t targets_len,
                                              uint32_t *parent, size_t parent_len,
                                              uint32_t *level, size_t level_len,
                                              uint32_t *work, size_t work_len);

/* The entry of v in the decomposition's parent or level. RELAYPATH_BAD_SIZE where
 * the two tables are not of one length from 1 to RELAYPATH_MAX_VERTICES, then
 * RELAYPATH_BAD_VERTEX; the answer is then left as it was. */
uint32_t relaypath_centroid_parent(const uint32_t *parent, size_t parent_len,
                                   const uint32_t *level, size_t level_len,
                                   size_t v,
                                   uint32_t *answer);

uint32_t relaypath_centroid_level(const uint32_t *parent, size_t parent_len,
                                  const uint32_t *level, size_t level_len,
                                  size_t v,
                                  uint32_t *answer);

/*
 * The component lists: for c = 0 to n - 1 the vertices of c's component, that is
 * of what is left around c when the centroids above it are removed, breadth first
 * in list order. Answers RELAYPATH_DONE exactly where the graph is a tree and all
 * of it has room. Otherwise it answers a code from 1 to 8 and writes no list.
 *
 * offsets, targets: read, never written.
 * vertices, distances, branches: one entry to a vertex of a component: the vertex,
 *     its distance from c, and its branch, the neighbour of c that it hangs from (c
 *     itself for c). Together the lists have the sum of level + 1 over all vertices,
 *     at most n * (log2(n) + 1); RELAYPATH_NO_ROOM where one of the three arrays has
 *     fewer. Entries past the lists are unchanged.
 * starts: at least n + 1 entries, else RELAYPATH_NO_ROOM. The list of c stands from
 *     starts[c] up to starts[c + 1]. Entries past n + 1 are unchanged.
 * work: as for relaypath_validate_tree, except that its first 8n + E entries are
 *     zero too after RELAYPATH_NO_ROOM for starts or lists.
 * Time: proportional to n log n. It takes no other memory.
 */
uint32_t relaypath_component_lists(const uint32_t *offsets, size_t offsets_len,
                                   const uint32_t *targets, size_t targets_len,
                                   uint32_t *vertices, size_t vertices_len,
                                   uint32_t *distances, size_t distances_len,
                                   uint32_t *branches, size_t branches_len,
                                   uint32_t *starts, size_t starts_len,
                                   uint32_t *work, size_t work_len);

#ifdef __cplusplus
}
#endif

#endif
