/* Vignorasc: the paths, the connection IDs and the timers of a QUIC connection.
 *
 * Link with libvignorasc.a (x86-64, System V calling convention). docs/RULES.md says what every call answers and leaves; the comments below name its headings.
 *
 * A state (vig_timer_table, vig_ids, vig_paths) belongs to the host, which lends it to a call by a pointer. The calls keep nothing, allocate nothing, know no clock
 * and have no globals, so two threads may work on two states, or read one.
 *
 * No call asks anything of its caller but this: a pointer points to a whole state, which nobody else writes meanwhile, and every bool, there and in an argument,
 * is 0 or 1. What is out of form is refused with VIG_MALFORMED. Write a state through the calls alone: one of your own making is refused, or is well formed and
 * means what it says.
 *
 * The answer of a call on a state begins with `refusal`: 0 where the call was accepted. On a refusal every other field is zero, and RULES.md, "Refusals", says
 * what the state is left as.
 *
 * tools/face writes the structs and prototypes from the library's own definitions, and tests/host holds every offset and every number of an enum to them.
 * The comments are by hand. */
#ifndef VIGNORASC_H
#define VIGNORASC_H

#include <stdbool.h>
#include <stddef.h>
#include <stdint.h>

#ifdef __cplusplus
extern "C" {
#endif

/* ---- RULES.md, "Refusals" ---- */

enum vig_refusal {
    VIG_ACCEPTED = 0,
    VIG_MALFORMED = 1,
    VIG_INTERNAL_ERROR = 2,
    VIG_CONNECTION_ID_LIMIT_ERROR = 3,
    VIG_PROTOCOL_VIOLATION = 4,
    VIG_DONE = 5,
    VIG_NO_SLOT = 6,
    VIG_SPENT = 7,
    VIG_FAR_DEADLINE = 8
};

/* The transport error code (RFC 9000, 20.1) of a refusal's number. */
uint64_t vig_wire_code(uint64_t number);

/* ---- RULES.md, "Values" ---- */

/* len is 0 to 20; the bytes past it are zero. */
typedef struct vig_connection_id {
    uint8_t bytes[20];
    uint8_t len;
} vig_connection_id;

/* The token of a NEW_CONNECTION_ID frame, which always has one. */
typedef struct vig_reset_token {
    uint8_t bytes[16];
} vig_reset_token;

/* A token or none: then the bytes are zero. */
typedef struct vig_token {
    uint8_t bytes[16];
    bool present;
} vig_token;

/* Whether presence and bytes are equal: for a token that came in a datagram, against those held (RFC 9000, 10.3.1). All sixteen bytes of both are read, whatever
 * they are; nothing is claimed about time. Any two values are compared as they stand, and there is no refusal. Two absent ones are equal: of a token that came,
 * present is true. */
bool vig_token_matches(vig_token a, vig_token b);

/* kind is 4 or 6. Kind 4 uses the first 4 bytes of ip; the others, flow and scope are then zero. ip is in network order; port, flow and scope are numbers. */
typedef struct vig_address {
    uint8_t ip[16];
    uint32_t flow;
    uint32_t scope;
    uint16_t port;
    uint8_t kind;
} vig_address;

typedef struct vig_four_tuple {
    vig_address local;
    vig_address remote;
} vig_four_tuple;

/* RULES.md, "Moments and spans": microseconds, from a start that the host chooses, to 2^63 - 1. */
typedef struct vig_moment {
    uint64_t us;
} vig_moment;

typedef struct vig_span {
    uint64_t us;
} vig_span;

/* A moment or none: then it is 0. */
typedef struct vig_deadline {
    vig_moment at;
    bool set;
} vig_deadline;

/* ---- Plain answers ---- */

typedef struct vig_done {
    uint8_t refusal;
} vig_done;

typedef struct vig_flagged {
    uint8_t refusal;
    bool flag;
} vig_flagged;

typedef struct vig_counted {
    uint8_t refusal;
    uint64_t number;
} vig_counted;

/* A number or none: then it is 0. */
typedef struct vig_numbered {
    uint8_t refusal;
    bool present;
    uint64_t number;
} vig_numbered;

typedef struct vig_timed {
    uint8_t refusal;
    vig_deadline deadline;
} vig_timed;

/* ---- RULES.md, "Timers" ---- */

enum vig_timer {
    VIG_LOSS_DETECTION = 0,
    VIG_ACK = 1,
    VIG_PACER = 2,
    VIG_IDLE = 3,
    VIG_HANDSHAKE = 4,
    VIG_DRAINING = 5,
    VIG_KEY_DISCARD = 6,
    VIG_KEEP_ALIVE = 7,
    VIG_PATH_CHALLENGE = 8
};

typedef struct vig_timer_table {
    vig_deadline expires[9];
} vig_timer_table;

vig_timer_table vig_timers_fresh(void);
vig_done vig_timers_set(vig_timer_table *t, uint64_t timer, vig_moment at);
vig_timed vig_timers_get(const vig_timer_table *t, uint64_t timer);
vig_done vig_timers_stop(vig_timer_table *t, uint64_t timer);
vig_timed vig_timers_next_timeout(const vig_timer_table *t);
vig_flagged vig_timers_is_expired(const vig_timer_table *t, uint64_t timer, vig_moment moment);
/* Every timer is stopped. */
vig_done vig_timers_clear(vig_timer_table *t);

/* ---- RULES.md, "Well-formed IDs" ---- */

/* What is absent holds zeros. */
typedef struct vig_item {
    uint64_t seq;
    uint64_t path;
    vig_connection_id cid;
    vig_token token;
    bool has_path;
} vig_item;

typedef struct vig_table {
    vig_item items[31];
    size_t count;
} vig_table;

typedef struct vig_queue {
    uint64_t items[128];
    size_t count;
} vig_queue;

/* Source IDs are those that this endpoint gave its peer, destination IDs those that the peer gave it. */
typedef struct vig_ids {
    vig_table scids;
    vig_table dcids;
    size_t scid_capacity;
    uint64_t dcid_limit;
    uint64_t scid_limit;
    bool zero_length_scid;
    bool zero_length_dcid;
    uint64_t next_scid_seq;
    uint64_t retire_prior_to;
    uint64_t largest_peer_retire_prior_to;
    vig_queue scids_to_advertise;
    vig_queue dcids_to_retire;
} vig_ids;

/* A fresh state. On a refusal it is all zeros, which every later call refuses. */
typedef struct vig_ids_done_out {
    vig_ids ids;
    vig_done answer;
} vig_ids_done_out;

/* An item or none: then it is zero. */
typedef struct vig_item_answer {
    uint8_t refusal;
    bool present;
    vig_item item;
} vig_item_answer;

/* A sequence with its optional path, or none: then all are zero. */
typedef struct vig_ids_found_answer {
    uint8_t refusal;
    bool present;
    bool has_path;
    uint64_t seq;
    uint64_t path;
} vig_ids_found_answer;

/* The fields of a NEW_CONNECTION_ID frame (RFC 9000, 19.15). */
typedef struct vig_frame_answer {
    uint8_t refusal;
    uint64_t seq;
    uint64_t retire_prior_to;
    vig_connection_id cid;
    vig_reset_token token;
} vig_frame_answer;

/* A sequence, and the path that used it. */
typedef struct vig_used_seq {
    uint64_t seq;
    uint64_t path;
} vig_used_seq;

typedef struct vig_used {
    vig_used_seq pairs[31];
    size_t count;
} vig_used;

/* The sequences that left the table while a path used them. */
typedef struct vig_retired_answer {
    uint8_t refusal;
    vig_used used;
} vig_retired_answer;

/* ---- RULES.md, "Source IDs"; `has` says whether there is a path: where there is none, path is 0 ---- */

vig_ids_done_out vig_ids_fresh(uint64_t dcid_limit, vig_connection_id cid, uint64_t path, vig_token token);
vig_done vig_ids_set_scid_limit(vig_ids *t, uint64_t n);
vig_counted vig_ids_add_scid(vig_ids *t, vig_connection_id cid, vig_token token, bool advertise, bool has_path, uint64_t path, bool retire_if_needed);
vig_numbered vig_ids_retire_scid(vig_ids *t, uint64_t seq, vig_connection_id packet);

/* ---- RULES.md, "Destination IDs"; a frame below an earlier Retire Prior To gives no ID: it is queued to be retired, or waits there already and changes nothing ---- */

vig_done vig_ids_set_initial_dcid(vig_ids *t, vig_connection_id cid, vig_token token, bool has_path, uint64_t path);
vig_retired_answer vig_ids_add_dcid(vig_ids *t, vig_connection_id cid, uint64_t seq, vig_reset_token token, uint64_t retire_prior_to);

/* ---- RULES.md, "Marks, queues and lookups" ---- */

vig_item_answer vig_ids_get_scid(const vig_ids *t, uint64_t seq);
vig_item_answer vig_ids_get_dcid(const vig_ids *t, uint64_t seq);
vig_ids_found_answer vig_ids_find_scid(const vig_ids *t, vig_connection_id cid);
vig_done vig_ids_mark_scid_used(vig_ids *t, uint64_t seq, uint64_t path);
vig_done vig_ids_mark_dcid_used(vig_ids *t, uint64_t seq, uint64_t path);
vig_counted vig_ids_unused_scids(const vig_ids *t);
vig_counted vig_ids_unused_dcids(const vig_ids *t);
vig_numbered vig_ids_lowest_unused_dcid_seq(const vig_ids *t);
vig_done vig_ids_mark_scid_to_advertise(vig_ids *t, uint64_t seq, bool on);
vig_done vig_ids_mark_dcid_to_retire(vig_ids *t, uint64_t seq, bool on);
vig_numbered vig_ids_next_scid_to_advertise(const vig_ids *t);
vig_numbered vig_ids_next_dcid_to_retire(const vig_ids *t);
vig_frame_answer vig_ids_create_new_connection_id_frame(const vig_ids *t, uint64_t seq);
vig_flagged vig_ids_need_send_cid_control_frames(const vig_ids *t);
vig_flagged vig_ids_zero_length_dcid(const vig_ids *t);
vig_flagged vig_ids_zero_length_scid(const vig_ids *t);
vig_counted vig_ids_dcid_count(const vig_ids *t);
vig_item_answer vig_ids_dcid_at(const vig_ids *t, uint64_t place);
vig_counted vig_ids_scid_count(const vig_ids *t);
vig_item_answer vig_ids_scid_at(const vig_ids *t, uint64_t place);

/* ---- RULES.md, "Well-formed paths" ---- */

enum vig_path_state {
    VIG_FAILED = 0,
    VIG_UNKNOWN = 1,
    VIG_VALIDATING = 2,
    VIG_VALIDATING_MTU = 3,
    VIG_VALIDATED = 4
};

/* Challenge data is the frame's 8 bytes read as one big-endian number. */
typedef struct vig_received {
    uint64_t items[8];
    size_t count;
} vig_received;

typedef struct vig_challenge {
    uint64_t data;
    uint64_t size;
    vig_moment sent;
    vig_moment deadline;
} vig_challenge;

typedef struct vig_sent {
    vig_challenge items[16];
    size_t count;
} vig_sent;

typedef struct vig_spans {
    vig_span items[16];
    size_t count;
} vig_spans;

/* anti_ampl_limit is the path's credit. listed: the path is the one that its pair names. */
typedef struct vig_path {
    vig_four_tuple pair;
    vig_received recv_chals;
    vig_sent sent_chals;
    uint64_t max_datagram_size;
    uint64_t scid_seq;
    uint64_t dcid_seq;
    uint64_t lost_chal;
    uint64_t max_challenge_size;
    uint64_t anti_ampl_limit;
    uint8_t state;
    bool has_scid;
    bool has_dcid;
    bool active;
    bool need_send_challenge;
    bool verified_peer_address;
    bool peer_verified_local_address;
    bool need_send_ping;
    bool listed;
} vig_path;

typedef struct vig_paths {
    vig_path items[8];
    size_t count;
    uint64_t max_paths;
    uint64_t anti_ampl_factor;
    bool is_multipath;
    bool is_server;
} vig_paths;

/* A fresh state. On a refusal it is all zeros, which every later call refuses. */
typedef struct vig_paths_done_out {
    vig_paths paths;
    vig_done answer;
} vig_paths_done_out;

typedef struct vig_path_answer {
    uint8_t refusal;
    vig_path path;
} vig_path_answer;

typedef struct vig_paths_found_answer {
    uint8_t refusal;
    uint64_t id;
    vig_path path;
} vig_paths_found_answer;

typedef struct vig_address_answer {
    uint8_t refusal;
    vig_address address;
} vig_address_answer;

/* Whether the path is now Validated, and a span for each challenge that the response matched. Where it matched none, nothing has changed. */
typedef struct vig_responded_answer {
    uint8_t refusal;
    bool yes;
    vig_spans spans;
} vig_responded_answer;

/* ---- RULES.md, "Paths" ---- */

vig_paths_done_out vig_paths_fresh(vig_four_tuple pair, uint64_t max_datagram_size, uint64_t limit, uint64_t factor, bool server);

vig_address_answer vig_paths_local_addr(const vig_paths *t, uint64_t id);
vig_address_answer vig_paths_remote_addr(const vig_paths *t, uint64_t id);
vig_flagged vig_paths_validated(const vig_paths *t, uint64_t id);
vig_flagged vig_paths_active(const vig_paths *t, uint64_t id);
vig_counted vig_paths_state(const vig_paths *t, uint64_t id);
vig_path_answer vig_paths_get(const vig_paths *t, uint64_t id);
vig_numbered vig_paths_get_path_id(const vig_paths *t, vig_four_tuple pair);
vig_paths_found_answer vig_paths_get_active(const vig_paths *t);
vig_counted vig_paths_insert_path(vig_paths *t, vig_four_tuple pair, uint64_t max_datagram_size);
vig_counted vig_paths_len(const vig_paths *t);

/* ---- RULES.md, "Challenges" ---- */

vig_numbered vig_paths_pop_recv_chal(vig_paths *t, uint64_t id);
vig_flagged vig_paths_path_chal_initiated(const vig_paths *t, uint64_t id);
vig_done vig_paths_initiate_path_chal(vig_paths *t, uint64_t id);
vig_flagged vig_paths_need_send_validation_frames(const vig_paths *t, uint64_t id);
vig_flagged vig_paths_need_expand_padding_frames(const vig_paths *t, uint64_t id);
vig_done vig_paths_on_path_chal_received(vig_paths *t, uint64_t id, uint64_t data);
vig_responded_answer vig_paths_on_path_resp_received(vig_paths *t, uint64_t id, uint64_t data, vig_moment moment);
vig_done vig_paths_on_path_chal_sent(vig_paths *t, uint64_t id, uint64_t data, uint64_t size, vig_moment sent);
vig_done vig_paths_on_path_chal_timeout(vig_paths *t, vig_moment moment);
vig_timed vig_paths_min_path_chal_timer(const vig_paths *t);

/* ---- RULES.md, "Credit": ask with cmp before each send, charge with dec after it ---- */

vig_done vig_paths_inc_anti_ampl_limit(vig_paths *t, uint64_t id, uint64_t length);
vig_done vig_paths_dec_anti_ampl_limit(vig_paths *t, uint64_t id, uint64_t length);
vig_counted vig_paths_cmp_anti_ampl_limit(const vig_paths *t, uint64_t id, uint64_t wish);

/* ---- RULES.md, "Pings and multipath"; an absent pair is all zeros ---- */

vig_done vig_paths_mark_ping(vig_paths *t, bool has_pair, vig_four_tuple pair);
vig_done vig_paths_enable_multipath(vig_paths *t);

/* ---- RULES.md, "Fields a host may set"; an absent sequence is 0 ---- */

vig_done vig_paths_set_active(vig_paths *t, uint64_t id, bool on);
vig_done vig_paths_set_scid_seq(vig_paths *t, uint64_t id, bool has_seq, uint64_t seq);
vig_done vig_paths_set_dcid_seq(vig_paths *t, uint64_t id, bool has_seq, uint64_t seq);
vig_done vig_paths_mark_verified(vig_paths *t, uint64_t id);

#ifdef __cplusplus
}
#endif

#endif
