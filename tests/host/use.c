/* A host in C: lends its timers, its IDs and its paths to the library, and prints what it is told. The sizes are checked by tools/face, the answers here by
 * hand from docs/RULES.md. */
#include <stdio.h>
#include <stdlib.h>
#include <string.h>
#include "vignorasc.h"

static void check(int line, int holds, const char *what) {
    if (!holds) {
        fprintf(stderr, "use.c:%d: not so: %s\n", line, what);
        exit(1);
    }
}
#define CHECK(x) check(__LINE__, (x), #x)

static vig_connection_id id(const char *text) {
    vig_connection_id c = {{0}, 0};
    c.len = (uint8_t)strlen(text);
    memcpy(c.bytes, text, c.len);
    return c;
}

static vig_token token(uint8_t first) {
    vig_token t;
    for (int i = 0; i < 16; i++) t.bytes[i] = (uint8_t)(first + i);
    t.present = true;
    return t;
}

static vig_moment at(uint64_t us) {
    vig_moment m = {us};
    return m;
}

static void timers(void) {
    vig_timer_table t = vig_timers_fresh();
    CHECK(vig_timers_set(&t, VIG_IDLE, at(30000000)).refusal == VIG_ACCEPTED);
    CHECK(vig_timers_set(&t, VIG_PATH_CHALLENGE, at(25000)).refusal == VIG_ACCEPTED);
    vig_timed next = vig_timers_next_timeout(&t);
    CHECK(next.deadline.set && next.deadline.at.us == 25000);
    CHECK(vig_timers_is_expired(&t, VIG_PATH_CHALLENGE, at(25000)).flag);
    CHECK(!vig_timers_is_expired(&t, VIG_IDLE, at(25000)).flag);
    CHECK(vig_timers_stop(&t, VIG_PATH_CHALLENGE).refusal == VIG_ACCEPTED);
    CHECK(!vig_timers_get(&t, VIG_PATH_CHALLENGE).deadline.set);
    CHECK(t.expires[VIG_IDLE].set && t.expires[VIG_IDLE].at.us == 30000000);
    uint8_t above = vig_timers_set(&t, 9, at(0)).refusal, late = vig_timers_set(&t, VIG_ACK, at(UINT64_C(1) << 63)).refusal;
    CHECK(above == VIG_MALFORMED && late == VIG_MALFORMED);
    printf("timers: the next was due at %llu us; timer 9 and moment 2^63 are refused with %u, wire code 0x%02llx\n",
           (unsigned long long)next.deadline.at.us, above, (unsigned long long)vig_wire_code(above));
}

/* Each byte alone, and presence alone, is a difference; what is out of form is compared as it stands. */
static void tokens(void) {
    vig_token none = {{0}, false}, zeros = {{0}, true}, held = token(16), odd = {{0}, false};
    CHECK(vig_token_matches(held, token(16)) && vig_token_matches(none, none) && !vig_token_matches(none, zeros));
    int differ = 0;
    for (int i = 0; i < 16; i++) {
        vig_token other = held;
        other.bytes[i] ^= (uint8_t)(1 << i % 8);
        differ += !vig_token_matches(held, other) && !vig_token_matches(other, held);
    }
    CHECK(differ == 16);
    odd.bytes[15] = 9;
    CHECK(vig_token_matches(odd, odd) && !vig_token_matches(odd, none));

    uint8_t datagram[40];
    memset(datagram, 0x5a, sizeof datagram);
    memcpy(datagram + 24, held.bytes, 16);
    vig_token last = {{0}, true};
    memcpy(last.bytes, datagram + sizeof datagram - 16, 16);
    CHECK(vig_token_matches(last, held));
    printf("tokens: a datagram that ends with the token is a reset; any of %d bytes otherwise, and it is none\n", differ);
}

static void ids(void) {
    vig_token none = {{0}, false};
    vig_ids_done_out out = vig_ids_fresh(2, id("server-0"), 0, none);
    CHECK(out.answer.refusal == VIG_ACCEPTED);
    vig_ids t = out.ids;
    CHECK(vig_ids_set_initial_dcid(&t, id("client-0"), none, true, 0).refusal == VIG_ACCEPTED);

    vig_counted issued = vig_ids_add_scid(&t, id("server-1"), token(16), true, true, 7, false);
    CHECK(issued.refusal == VIG_ACCEPTED && issued.number == 1);
    vig_item_answer back = vig_ids_scid_at(&t, 1);
    CHECK(back.present && back.item.seq == 1 && back.item.has_path && back.item.path == 7 && back.item.token.present);
    CHECK(back.item.cid.len == 8 && memcmp(back.item.cid.bytes, "server-1", 8) == 0);
    CHECK(vig_token_matches(back.item.token, token(16)) && !vig_token_matches(back.item.token, none));
    vig_frame_answer frame = vig_ids_create_new_connection_id_frame(&t, 1);
    CHECK(frame.refusal == VIG_ACCEPTED && frame.seq == 1 && frame.retire_prior_to == 0 && frame.token.bytes[15] == 31);
    CHECK(vig_ids_add_scid(&t, id("server-2"), token(32), true, false, 0, false).refusal == VIG_CONNECTION_ID_LIMIT_ERROR);
    /* No path, and yet a number: not of its form. */
    CHECK(vig_ids_add_scid(&t, id("server-2"), token(32), true, false, 9, false).refusal == VIG_MALFORMED);
    printf("ids: issued %.8s with sequence %llu for path %llu; a third is refused with %u\n", (const char *)frame.cid.bytes,
           (unsigned long long)frame.seq, (unsigned long long)back.item.path, VIG_CONNECTION_ID_LIMIT_ERROR);

    vig_reset_token reset;
    memset(reset.bytes, 5, 16);
    vig_retired_answer retired = vig_ids_add_dcid(&t, id("client-1"), 1, reset, 1);
    CHECK(retired.refusal == VIG_ACCEPTED && retired.used.count == 1);
    CHECK(retired.used.pairs[0].seq == 0 && retired.used.pairs[0].path == 0);
    CHECK(vig_ids_next_dcid_to_retire(&t).present && vig_ids_next_dcid_to_retire(&t).number == 0);
    /* The frame of the first ID, received late: it waits to be retired, and stays out. */
    vig_ids waits = t;
    retired = vig_ids_add_dcid(&t, id("client-0"), 0, reset, 0);
    CHECK(retired.refusal == VIG_ACCEPTED && retired.used.count == 0 && vig_ids_dcid_count(&t).number == 1);
    CHECK(memcmp(&t, &waits, sizeof t) == 0);
    vig_ids_found_answer found = vig_ids_find_scid(&t, id("server-0"));
    CHECK(found.present && found.seq == 0 && found.has_path && found.path == 0);
    vig_numbered freed = vig_ids_retire_scid(&t, 0, id("server-1"));
    CHECK(freed.refusal == VIG_ACCEPTED && freed.present && freed.number == 0);
    CHECK(vig_ids_scid_count(&t).number == 1 && vig_ids_dcid_count(&t).number == 1);
    printf("ids: the peer's new ID retires its first, which path %llu used, and which doesn't come back; ours goes too\n",
           (unsigned long long)freed.number);

    /* A state that no call made. */
    vig_ids zero;
    memset(&zero, 0, sizeof zero);
    CHECK(vig_ids_scid_count(&zero).refusal == VIG_MALFORMED);
}

static vig_address v4(uint8_t last, uint16_t port) {
    vig_address a = {{192, 0, 2, last}, 0, 0, port, 4};
    return a;
}

static vig_address v6(uint8_t last, uint16_t port) {
    vig_address a = {{0xfe, 0x80}, 0x01020304, 7, port, 6};
    a.ip[15] = last;
    return a;
}

static int same_address(vig_address a, vig_address b) {
    return memcmp(a.ip, b.ip, 16) == 0 && a.flow == b.flow && a.scope == b.scope && a.port == b.port && a.kind == b.kind;
}

/* Every field of a path is written by a call and read back. */
static void paths(void) {
    vig_four_tuple cable = {v4(1, 443), v4(9, 50000)}, wireless = {v6(1, 443), v6(9, 40000)}, nowhere;
    memset(&nowhere, 0, sizeof nowhere);
    vig_paths_done_out out = vig_paths_fresh(cable, 1350, 2, 3, true);
    CHECK(out.answer.refusal == VIG_ACCEPTED);
    vig_paths t = out.paths;
    CHECK(t.count == 1 && t.max_paths == 2 && t.anti_ampl_factor == 3 && t.is_server && !t.is_multipath);
    vig_counted inserted = vig_paths_insert_path(&t, wireless, 1200);
    CHECK(inserted.refusal == VIG_ACCEPTED && inserted.number == 1 && vig_paths_len(&t).number == 2);
    CHECK(vig_paths_get_path_id(&t, wireless).present && vig_paths_get_path_id(&t, wireless).number == 1);

    CHECK(vig_paths_set_scid_seq(&t, 1, true, 4).refusal == VIG_ACCEPTED);
    CHECK(vig_paths_set_dcid_seq(&t, 1, true, 5).refusal == VIG_ACCEPTED);
    CHECK(vig_paths_inc_anti_ampl_limit(&t, 1, 1200).refusal == VIG_ACCEPTED);
    vig_counted may = vig_paths_cmp_anti_ampl_limit(&t, 1, 10000);
    CHECK(may.number == 3600);
    CHECK(vig_paths_initiate_path_chal(&t, 1).refusal == VIG_ACCEPTED);
    CHECK(vig_paths_need_send_validation_frames(&t, 1).flag && vig_paths_need_expand_padding_frames(&t, 1).flag);
    CHECK(vig_paths_on_path_chal_sent(&t, 1, 0x0102030405060708, 1100, at(1000)).refusal == VIG_ACCEPTED);
    CHECK(vig_paths_dec_anti_ampl_limit(&t, 1, 1100).refusal == VIG_ACCEPTED);
    CHECK(vig_paths_on_path_chal_received(&t, 1, 0xa1a2a3a4a5a6a7a8).refusal == VIG_ACCEPTED);
    CHECK(vig_paths_min_path_chal_timer(&t).deadline.at.us == 26000);
    CHECK(vig_paths_on_path_chal_timeout(&t, at(25999)).refusal == VIG_ACCEPTED);

    vig_path p = vig_paths_get(&t, 1).path;
    CHECK(same_address(p.pair.local, wireless.local) && same_address(p.pair.remote, wireless.remote));
    CHECK(same_address(vig_paths_remote_addr(&t, 1).address, wireless.remote) && same_address(vig_paths_local_addr(&t, 0).address, cable.local));
    CHECK(p.recv_chals.count == 1 && p.recv_chals.items[0] == 0xa1a2a3a4a5a6a7a8);
    CHECK(p.sent_chals.count == 1 && p.sent_chals.items[0].data == 0x0102030405060708 && p.sent_chals.items[0].size == 1100);
    CHECK(p.sent_chals.items[0].sent.us == 1000 && p.sent_chals.items[0].deadline.us == 26000);
    CHECK(p.max_datagram_size == 1200 && p.has_scid && p.scid_seq == 4 && p.has_dcid && p.dcid_seq == 5);
    CHECK(p.lost_chal == 0 && p.max_challenge_size == 0 && p.anti_ampl_limit == 2500 && p.state == VIG_VALIDATING);
    CHECK(!p.active && !p.need_send_challenge && !p.verified_peer_address && p.peer_verified_local_address);
    CHECK(!p.need_send_ping && p.listed);

    CHECK(vig_paths_on_path_chal_timeout(&t, at(26000)).refusal == VIG_ACCEPTED);
    p = vig_paths_get(&t, 1).path;
    CHECK(p.lost_chal == 1 && p.need_send_challenge && p.sent_chals.count == 0);
    CHECK(vig_paths_pop_recv_chal(&t, 1).number == 0xa1a2a3a4a5a6a7a8);
    CHECK(vig_paths_on_path_chal_sent(&t, 1, 17, 1200, at(26000)).refusal == VIG_ACCEPTED);
    const vig_paths asked = t;
    vig_responded_answer answer = vig_paths_on_path_resp_received(&t, 1, 16, at(34000));
    CHECK(answer.refusal == VIG_ACCEPTED && !answer.yes && answer.spans.count == 0 && memcmp(&t, &asked, sizeof t) == 0);
    answer = vig_paths_on_path_resp_received(&t, 1, 17, at(35000));
    CHECK(answer.refusal == VIG_ACCEPTED && answer.yes && answer.spans.count == 1 && answer.spans.items[0].us == 9000);
    CHECK(vig_paths_set_active(&t, 0, false).refusal == VIG_ACCEPTED && vig_paths_set_active(&t, 1, true).refusal == VIG_ACCEPTED);
    CHECK(vig_paths_mark_ping(&t, false, nowhere).refusal == VIG_ACCEPTED);
    vig_paths_found_answer found = vig_paths_get_active(&t);
    CHECK(found.id == 1 && found.path.active && found.path.need_send_ping && found.path.verified_peer_address);
    CHECK(found.path.state == VIG_VALIDATED && found.path.max_challenge_size == 1200);
    CHECK(vig_paths_insert_path(&t, wireless, 1200).refusal == VIG_DONE);
    printf("paths: %llu bytes may go to a new address that sent 1200; a response after %llu us validates it\n",
           (unsigned long long)may.number, (unsigned long long)answer.spans.items[0].us);
}

int main(void) {
    timers();
    tokens();
    ids();
    paths();
    return 0;
}
