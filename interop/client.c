/* A real client against the key: libfido2's calls, first alone and then with a stranger on the bus, and what came of them. */

#include "interop.h"

#include <inttypes.h>
#include <stdio.h>
#include <string.h>

#include <fido.h>

enum { HASH = 32, USER_ID = 16, CREDENTIAL_ID = 64 };

/* So many listed credentials and so long a name make the longest message there is, 7,609 bytes in 129 packets. */
enum { MOST_LISTED = 86, LONGEST_NAME = 90 };

static const unsigned char client_data_hash[HASH] = "thirty-two bytes in place of one";
static const unsigned char credential_id[CREDENTIAL_ID] = "a credential that the core never made";
static const char saw[] = "saw.example";

static fido_dev_t *device;
static uint8_t flags; /* of the INIT reply: libfido2 changes its own when it is told to speak U2F */
static fido_cbor_info_t *info;
static unsigned char registered_id[CREDENTIAL_ID]; /* the key handle that libfido2 read in the registration */
static size_t registered_id_length;

static int open_device(void)
{
    int result = fido_dev_open(device, "the bench");

    flags = fido_dev_flags(device);
    if (result == FIDO_OK && flags != FIDO_CAP_CBOR) /* without FIDO_CAP_NMSG, which would be: no MSG */
        fail("libfido2 reads the flags %02x, not 04", flags);
    return result;
}

static int get_info(void)
{
    int result;

    fido_cbor_info_free(&info);
    info = fido_cbor_info_new();
    result = fido_dev_get_cbor_info(device, info);
    if (result == FIDO_OK && (fido_cbor_info_aaguid_len(info) != sizeof core_aaguid
                              || memcmp(fido_cbor_info_aaguid_ptr(info), core_aaguid, sizeof core_aaguid) != 0))
        fail("libfido2 reads another aaguid than the core's");
    return result;
}

/* The planner's name is so long, and so many credentials are listed that must not be there already. */
static int make_credential(int algorithm, size_t name_length, int listed)
{
    static const unsigned char user[USER_ID] = "planner";
    char name[LONGEST_NAME + 1] = { 0 };
    fido_cred_t *credential = fido_cred_new();
    int result;

    memset(name, 'n', name_length);
    fido_cred_set_type(credential, algorithm);
    fido_cred_set_clientdata_hash(credential, client_data_hash, HASH);
    fido_cred_set_rp(credential, saw, "The saw");
    fido_cred_set_user(credential, user, USER_ID, name, NULL, NULL);
    for (int i = 0; i < listed; i++)
        fido_cred_exclude(credential, credential_id, CREDENTIAL_ID);
    result = fido_dev_make_cred(device, credential, NULL);
    if (result == FIDO_OK && fido_cred_id_len(credential) <= CREDENTIAL_ID) {
        registered_id_length = fido_cred_id_len(credential);
        memcpy(registered_id, fido_cred_id_ptr(credential), registered_id_length);
    }
    fido_cred_free(&credential);
    return result;
}

static int make_with_es256(void)
{
    return make_credential(COSE_ES256, 1, 0);
}

static int make_longest(void)
{
    return make_credential(COSE_ES256, LONGEST_NAME, MOST_LISTED);
}

static int make_with_rs256(void)
{
    return make_credential(COSE_RS256, 1, 0);
}

static int assert_with(const unsigned char *id, size_t id_length)
{
    fido_assert_t *assertion = fido_assert_new();
    int result;

    fido_assert_set_clientdata_hash(assertion, client_data_hash, HASH);
    fido_assert_set_rp(assertion, saw);
    fido_assert_allow_cred(assertion, id, id_length);
    result = fido_dev_get_assert(device, assertion, NULL);
    fido_assert_free(&assertion);
    return result;
}

static int get_assertion(void)
{
    return assert_with(credential_id, CREDENTIAL_ID);
}

static void cancel(void)
{
    if (fido_dev_cancel(device) != FIDO_OK)
        fail("libfido2 cannot send its CANCEL");
}

static int cancel_assertion(void)
{
    usb_cancel_next(cancel);
    return get_assertion();
}

static int reset(void)
{
    return fido_dev_reset(device);
}

/* From here on libfido2 takes the key for an old token, and speaks U2F. */
static int u2f_register(void)
{
    fido_dev_force_u2f(device);
    return make_with_es256();
}

static int u2f_authenticate(void)
{
    return assert_with(registered_id, registered_id_length);
}

/* The core answers what the key hands on with a ticket; the key itself answers the rest. */
static const struct {
    const char *name;
    int (*run)(void);
    bool handed_on;
    int result;
} exchanges[] = {
    { "open: INIT and GetInfo", open_device, true, FIDO_OK },
    { "GetInfo", get_info, true, FIDO_OK },
    { "MakeCredential", make_with_es256, true, FIDO_ERR_OPERATION_DENIED },
    { "MakeCredential, the longest", make_longest, true, FIDO_ERR_OPERATION_DENIED },
    { "MakeCredential with RS256 alone", make_with_rs256, false, FIDO_ERR_UNSUPPORTED_ALGORITHM },
    { "GetAssertion", get_assertion, true, FIDO_ERR_NO_CREDENTIALS },
    { "Reset", reset, false, FIDO_ERR_INVALID_COMMAND },
    { "GetAssertion, then CANCEL", cancel_assertion, true, FIDO_ERR_KEEPALIVE_CANCEL },
    { "GetInfo, a late delivery first", get_info, true, FIDO_OK },
    { "U2F: REGISTER until touched", u2f_register, true, FIDO_OK },
    { "U2F: AUTHENTICATE until touched", u2f_authenticate, true, FIDO_OK },
    { "U2F: AUTHENTICATE, other handle", get_assertion, true, FIDO_ERR_NO_CREDENTIALS },
};
enum { EXCHANGES = sizeof exchanges / sizeof exchanges[0] };

static void list(const char *what, char **words, size_t count)
{
    printf("  %s:", what);
    for (size_t i = 0; i < count; i++)
        printf(" %s", words[i]);
    putchar('\n');
}

static void show_device(void)
{
    char aaguid[2 * sizeof core_aaguid + 1];

    printf("  protocol %u, device %u.%u.%u, flags %02x (CBOR and MSG)\n", fido_dev_protocol(device), fido_dev_major(device),
           fido_dev_minor(device), fido_dev_build(device), flags);
    list("versions", fido_cbor_info_versions_ptr(info), fido_cbor_info_versions_len(info));
    list("extensions", fido_cbor_info_extensions_ptr(info), fido_cbor_info_extensions_len(info));
    write_hex(aaguid, fido_cbor_info_aaguid_ptr(info), fido_cbor_info_aaguid_len(info));
    printf("  aaguid: %s\n  options:", aaguid);
    for (size_t i = 0; i < fido_cbor_info_options_len(info); i++)
        printf(" %s=%s", fido_cbor_info_options_name_ptr(info)[i], fido_cbor_info_options_value_ptr(info)[i] ? "yes" : "no");
    putchar('\n');
    list("transports", fido_cbor_info_transports_ptr(info), fido_cbor_info_transports_len(info));
    printf("  algorithm %d, longest message %" PRIu64 ", firmware %" PRIu64 "\n", fido_cbor_info_algorithm_cose(info, 0),
           fido_cbor_info_maxmsgsiz(info), fido_cbor_info_fwversion(info));
}

static void play_all(char *const command[], bool stranger)
{
    static const fido_dev_io_t io = { usb_open, usb_close, usb_read, usb_write };

    if ((device = fido_dev_new()) == NULL || fido_dev_set_io_functions(device, &io) != FIDO_OK)
        fail("libfido2 does not take the I/O functions");
    usb_begin("libfido2", command, stranger);
    for (int i = 0; i < EXCHANGES; i++) {
        int result = exchanges[i].run();

        usb_exchange(exchanges[i].name, exchanges[i].handed_on, fido_strerr(result), fido_strerr(exchanges[i].result));
    }
    if (!stranger) {
        puts("What libfido2 read of the key and its core:");
        show_device();
    }
    if (fido_dev_close(device) != FIDO_OK)
        fail("libfido2 cannot close the device");
    fido_dev_free(&device);
}

int main(int argc, char **argv)
{
    static char *bench[] = { "./bench", NULL };
    char *const *command = argc > 1 ? argv + 1 : bench;

    fido_init(0);
    play_all(command, false);
    play_all(command, true);
    puts("What the core's late deliveries drew:");
    core_report();
    usb_report();
    fido_cbor_info_free(&info);
    return 0;
}
