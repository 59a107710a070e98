/* A Wireshark plugin around what asn2wrs makes of a module. tests/interop/wireshark-plugin.sh compiles it with these: ROOTS, a list of
   ROOT(function, port); NAME; STAMP, how many octets precede each encoding; BARE, whether it goes without the code below. */
#include <epan/packet.h>
#include <epan/asn1.h>
#include <epan/dissectors/packet-ber.h>
#include <epan/dissectors/packet-per.h>
#include <epan/expert.h>
#include <string.h>
#include <ws_version.h>

static int proto = -1, hf_stamp = -1;
static gint ett_root = -1;
static expert_field ei_wide = EI_INIT;
#include "packet-m-val.h"
#include "packet-m-hf.c"
#include "packet-m-ett.c"

#if !BARE
typedef unsigned __int128 wide;

/* libwireshark of 4.0 has dissect_per_UTF8String, but doesn't export it. */
static guint32 per_text(tvbuff_t *tvb, guint32 at, asn1_ctx_t *actx, proto_tree *tree, int hf) {
    tvbuff_t *value = NULL;
    at = dissect_per_octet_string(tvb, at, actx, tree, -1, -1, -1, FALSE, &value);
    if (hf > 0 && value) actx->created_item = proto_tree_add_item(tree, hf, value, 0, -1, ENC_UTF_8);
    return at;
}

/* A whole number of up to 128 bits in two's complement. */
static void show(proto_tree *tree, int hf, tvbuff_t *tvb, int at, int length, wide n) {
    char text[48];
    int i = 47;
    gboolean is_negative = (__int128)n < 0;
    wide rest = is_negative ? -n : n;
    if (hf <= 0) return;
    text[i] = 0;
    do text[--i] = '0' + (int)(rest % 10); while (rest /= 10);
    if (is_negative) text[--i] = '-';
    if (proto_registrar_get_nth(hf)->strings) { /* an ENUMERATED of DER */
        proto_tree_add_uint(tree, hf, tvb, at, length, (guint32)n);
        return;
    }
    switch (proto_registrar_get_ftype(hf)) {
    case FT_UINT64: proto_tree_add_uint64_format_value(tree, hf, tvb, at, length, (guint64)n, "%s", text + i); break;
    case FT_INT64: proto_tree_add_int64_format_value(tree, hf, tvb, at, length, (gint64)n, "%s", text + i); break;
    case FT_UINT32: proto_tree_add_uint_format_value(tree, hf, tvb, at, length, (guint32)n, "%s", text + i); break;
    default: proto_tree_add_int_format_value(tree, hf, tvb, at, length, (gint32)n, "%s", text + i);
    }
}

static wide bits(tvbuff_t *tvb, guint32 *at, int count) {
    wide n = 0;
    while (count > 0) {
        int some = count > 8 ? 8 : count;
        n = n << some | tvb_get_bits8(tvb, *at, some);
        *at += some;
        count -= some;
    }
    return n;
}

static int width(wide n) {
    int count = 0;
    for (; n; n >>= 1) count++;
    return count;
}

static guint32 aligned(asn1_ctx_t *actx, guint32 at) { return actx->aligned ? (at + 7) & ~7U : at; }

/* The octets of a number with an open end, with the sign if `lowest` isn't given. */
static guint32 per_octets(tvbuff_t *tvb, guint32 at, asn1_ctx_t *actx, proto_tree *tree, gboolean is_signed, wide *n) {
    at = aligned(actx, at);
    int count = (int)bits(tvb, &at, 8);
    if (count > 16) {
        proto_tree_add_expert_format(tree, actx->pinfo, &ei_wide, tvb, at / 8, 1, "a number of %d octets", count);
        return at + 8 * count;
    }
    *n = bits(tvb, &at, 8 * count);
    if (is_signed && count && count < 16 && *n >> (8 * count - 1)) *n -= (wide)1 << 8 * count;
    return at;
}

/* X.691, clause 11.5. */
static wide per_between(tvbuff_t *tvb, guint32 *at, asn1_ctx_t *actx, wide span) {
    if (!actx->aligned || span < 255) return bits(tvb, at, width(span));
    if (span > 65535) {
        int octets = 1 + (int)bits(tvb, at, width((width(span) + 7) / 8 - 1));
        *at = aligned(actx, *at);
        return bits(tvb, at, 8 * octets);
    }
    *at = aligned(actx, *at);
    return bits(tvb, at, span > 255 ? 16 : 8);
}

/* Reads a bound as asn2wrs wrote it, or returns FALSE if that is NO_BOUND. */
static gboolean bound(const char *text, wide *n) {
    if (strstr(text, "NO_BOUND")) return FALSE;
    if (strstr(text, "MININT32")) text = "-2147483648";
    const char *open = strchr(text, '(');
    if (open) text = open + 1;
    gboolean is_negative = *text == '-';
    for (*n = 0, text += is_negative; g_ascii_isdigit(*text); text++) *n = *n * 10 + (*text - '0');
    if (is_negative) *n = -*n;
    return TRUE;
}

static guint32 per_number(tvbuff_t *tvb, guint32 at, asn1_ctx_t *actx, proto_tree *tree, int hf, const char *lowest, const char *highest) {
    wide least = 0, most = 0, n = 0;
    guint32 start = at;
    gboolean has_least = bound(lowest, &least);
    if (has_least && bound(highest, &most)) n = per_between(tvb, &at, actx, most - least);
    else at = per_octets(tvb, at, actx, tree, !has_least, &n);
    show(tree, hf, tvb, start / 8, (at + 7) / 8 - start / 8, n + least);
    return at;
}

static int ber_number(gboolean is_implicit, asn1_ctx_t *actx, proto_tree *tree, tvbuff_t *tvb, int at, int hf) {
    guint32 length = tvb_reported_length_remaining(tvb, at);
    if (!is_implicit) {
        at = dissect_ber_identifier(actx->pinfo, tree, tvb, at, NULL, NULL, NULL);
        at = dissect_ber_length(actx->pinfo, tree, tvb, at, &length, NULL);
    }
    if (length > 16) {
        proto_tree_add_expert_format(tree, actx->pinfo, &ei_wide, tvb, at, length, "a number of %u octets", length);
        return at + length;
    }
    guint32 bit = 8 * at;
    wide n = bits(tvb, &bit, 8 * length);
    if (length && length < 16 && n >> (8 * length - 1)) n -= (wide)1 << 8 * length;
    show(tree, hf, tvb, at, length, n);
    return at + length;
}

#define dissect_per_UTF8String(tvb, at, actx, tree, hf, lo, hi, ext) per_text(tvb, at, actx, tree, hf)
#define dissect_ber_restricted_string(implicit, tag, actx, tree, tvb, at, hf, out) \
    dissect_ber_octet_string_with_encoding(implicit, actx, tree, tvb, at, hf, out, ENC_UTF_8)
#define dissect_per_integer(tvb, at, actx, tree, hf, out) per_number(tvb, at, actx, tree, hf, "NO_BOUND", "NO_BOUND")
#define dissect_per_constrained_integer(tvb, at, actx, tree, hf, lo, hi, out, ext) per_number(tvb, at, actx, tree, hf, #lo, #hi)
#define dissect_per_constrained_integer_64b(tvb, at, actx, tree, hf, lo, hi, out, ext) per_number(tvb, at, actx, tree, hf, #lo, #hi)
#define dissect_ber_integer(implicit, actx, tree, tvb, at, hf, out) ber_number(implicit, actx, tree, tvb, at, hf)
#define dissect_ber_integer64(implicit, actx, tree, tvb, at, hf, out) ber_number(implicit, actx, tree, tvb, at, hf)
#endif
#include "packet-m-fn.c"

/* Dissects the stamp and one encoding. One without bits is one octet (X.691, clause 11.1). */
static int message(int (*dissect)(tvbuff_t *, packet_info *, proto_tree *, void *), tvbuff_t *tvb, packet_info *pinfo, proto_tree *tree, void *data) {
    proto_tree *top = proto_item_add_subtree(proto_tree_add_item(tree, proto, tvb, 0, -1, ENC_NA), ett_root);
    col_set_str(pinfo->cinfo, COL_PROTOCOL, NAME);
    if (STAMP) proto_tree_add_item(top, hf_stamp, tvb, 0, STAMP, ENC_NA);
    int length = dissect(tvb_new_subset_remaining(tvb, STAMP), pinfo, top, data);
    return STAMP + (length ? length : 1);
}

#define ROOT(name, port)                                                                                  \
    static int root_##name(tvbuff_t *tvb, packet_info *pinfo, proto_tree *tree, void *data) {            \
        return message(dissect_##name##_PDU, tvb, pinfo, tree, data);                                     \
    }
ROOTS
#undef ROOT

static void register_fields(void) {
    static hf_register_info fields[] = {
        { &hf_stamp, { "stamp", NAME ".stamp", FT_BYTES, BASE_NONE, NULL, 0, NULL, HFILL } },
#include "packet-m-hfarr.c"
    };
    static gint *trees[] = { &ett_root,
#include "packet-m-ettarr.c"
    };
    static ei_register_info experts[] = { { &ei_wide, { NAME ".wide", PI_UNDECODED, PI_WARN, "Number of more than 128 bits", EXPFILL } } };
    proto = proto_register_protocol(NAME, NAME, NAME);
    proto_register_field_array(proto, fields, array_length(fields));
    proto_register_subtree_array(trees, array_length(trees));
    expert_register_field_array(expert_register_protocol(proto), experts, array_length(experts));
}

static void register_ports(void) {
#define ROOT(name, port) dissector_add_uint("udp.port", port, create_dissector_handle(root_##name, proto));
    ROOTS
}

WS_DLL_PUBLIC_DEF const gchar plugin_version[] = "1.0";
WS_DLL_PUBLIC_DEF const int plugin_want_major = WIRESHARK_VERSION_MAJOR;
WS_DLL_PUBLIC_DEF const int plugin_want_minor = WIRESHARK_VERSION_MINOR;
WS_DLL_PUBLIC void plugin_register(void) {
    static proto_plugin plugin = { register_fields, register_ports };
    proto_register_plugin(&plugin);
}
