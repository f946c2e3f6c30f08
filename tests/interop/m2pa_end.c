/* One end of an M2PA link (RFC 4165) over SCTP in UDP (RFC 6951), with usrsctp in the place of an SCTP of our own. It
 * shares no code with the rest of this repository.
 *
 *   m2pa_end UDP_PORT FAR_UDP_PORT SCTP_PORT FAR_SCTP_PORT connect|listen OPC DPC COUNT
 *            [stay FIRST [abort|shutdown AFTER]]
 *
 * It opens or awaits an association with an end of this machine, aligns and proves the link, sends COUNT messages, and
 * ends with status 0 once each of them is acknowledged and COUNT messages came, each once and in order. Each message is
 * User Data whose field has the routing label and the message's number.
 *
 * With `stay` it outlives its associations: where one is lost, it gives up what isn't acknowledged, and opens or awaits
 * the next. It sends no more than half of its messages in any one. They are numbered from FIRST on. What comes has to
 * have rising numbers, so nothing may come twice. It ends at SIGTERM. With `abort` or `shutdown` it ends its first
 * association so once AFTER messages came. */
#include <arpa/inet.h>
#include <errno.h>
#include <signal.h>
#include <stdarg.h>
#include <stdio.h>
#include <stdlib.h>
#include <string.h>
#include <time.h>
#include <unistd.h>
#include <usrsctp.h>

enum { HEADER = 16, LABEL = 4, MOST_FIELD = 272, WINDOW = 127, NUMBERS = 1 << 24 };
enum { PROTOCOL = 5, STATUS_STREAM = 0, DATA_STREAM = 1 };
enum { USER_DATA = 1, LINK_STATUS = 2 };
enum status { ALIGNMENT = 1, PROVING_NORMAL = 2, PROVING_EMERGENCY = 3, READY = 4, OUT_OF_SERVICE = 9 };
enum stage { DOWN, ALIGNING, PROVING, READY_SENT, IN_SERVICE };
enum { PROVING_MS = 500, REPEAT_MS = 100, LINGER_MS = 1500, LIMIT_MS = 120000 };

static struct socket *sock;
static sctp_assoc_t association;
static enum stage stage = DOWN;
static int peer_ready, owes_acknowledgement;
static long proving_until, repeat_at;
static unsigned opc, dpc, count, first;
static unsigned sent, acknowledged, received; /* of messages, in all */
static unsigned given_up, skipped;            /* of ours, and of the peer's */
static unsigned before;                       /* how many were sent before this association */
static unsigned next_number;                  /* of the next message that comes */
static unsigned last_accepted = NUMBERS - 1;  /* the BSN that goes out */
static int stays;
static const char *ending;
static unsigned ends_after;
static volatile sig_atomic_t is_over;
static unsigned own_far_port;
static const char *own_mode;

static long now_ms(void) {
	struct timespec t;
	clock_gettime(CLOCK_MONOTONIC, &t);
	return t.tv_sec * 1000L + t.tv_nsec / 1000000;
}

static void say(const char *form, ...) {
	va_list a;
	va_start(a, form);
	vprintf(form, a);
	va_end(a);
	putchar('\n');
	fflush(stdout);
}

static void fail(const char *why) {
	say("FAILED: %s (sent %u acknowledged %u received %u)", why, sent, acknowledged, received);
	_exit(1);
}

/* the FSN of the last of so many messages: the first one of an association has 0 */
static unsigned number_of(unsigned messages) { return (messages - before + NUMBERS - 1) % NUMBERS; }

/* RFC 4165 §2.1, §2.2 */
static void head(unsigned char *out, int type, unsigned length, unsigned bsn, unsigned fsn) {
	unsigned parts[3] = {htonl(length), htonl(bsn), htonl(fsn)};
	out[0] = 1;
	out[1] = 0;
	out[2] = 11;
	out[3] = type;
	memcpy(out + 4, parts, sizeof parts);
}

static int put(const void *octets, size_t length, int stream) {
	struct sctp_sndinfo info;
	memset(&info, 0, sizeof info);
	info.snd_sid = stream;
	info.snd_ppid = htonl(PROTOCOL);
	info.snd_assoc_id = association;
	if (usrsctp_sendv(sock, octets, length, NULL, 0, &info, sizeof info, SCTP_SENDV_SNDINFO, 0) >= 0) return 1;
	/* an association may be over before its notification is read, which an end that stays waits for */
	int is_over = stays && (errno == ECONNRESET || errno == ECONNABORTED || errno == ENOTCONN || errno == ENOENT);
	if (errno != EAGAIN && errno != EWOULDBLOCK && !is_over) fail(strerror(errno));
	return 0;
}

static void send_status(enum status status) {
	unsigned char out[HEADER + 4] = {0};
	head(out, LINK_STATUS, sizeof out, last_accepted, number_of(sent));
	out[HEADER + 3] = status;
	put(out, sizeof out, STATUS_STREAM);
}

/* a field of 8 to 272 octets: the label (Q.704 §2.2), the number, and filler; with LOAD, of so many */
#ifdef LOAD
static unsigned field_length(unsigned number) { return number < count ? LOAD : 0; }
#else
static unsigned field_length(unsigned number) { return 8 + number * 7919u % (MOST_FIELD - 8 + 1); }
#endif

/* whether the next message goes: where this end stays, only if enough are left for the next association; with LOAD only
 * some seconds after the link is in service, and no further ahead of what came than AHEAD, so that no node in between
 * fills */
static int may_send(void) {
#ifdef LOAD
	enum { AHEAD = 8192, REST_S = 3 };
	static time_t since;
	if (!since) since = time(NULL);
	if (time(NULL) - since < REST_S || sent >= received + AHEAD) return 0;
#endif
	if (stays && sent - before >= count / 2) return 0;
	return sent < count && sent - acknowledged < WINDOW;
}

static int send_message(void) {
	unsigned char out[HEADER + 2 + MOST_FIELD] = {0};
	unsigned own = first + sent, number = htonl(own);
	unsigned length = field_length(own), label = dpc | opc << 14 | (own & 15) << 28;
	head(out, USER_DATA, HEADER + 2 + length, last_accepted, number_of(sent + 1));
	out[HEADER + 1] = 0x8f; /* national, a spare user part: no reader knows its fields */
	for (unsigned i = 0; i < LABEL; i++) out[HEADER + 2 + i] = label >> 8 * i;
	memcpy(out + HEADER + 2 + LABEL, &number, sizeof number);
	for (unsigned i = 8; i < length; i++) out[HEADER + 2 + i] = i + own;
	if (!put(out, HEADER + 2 + length, DATA_STREAM)) return 0;
	sent++;
	owes_acknowledgement = 0;
	return 1;
}

static void acknowledge(void) {
	unsigned char out[HEADER];
	head(out, USER_DATA, sizeof out, last_accepted, number_of(sent));
	if (put(out, sizeof out, DATA_STREAM)) owes_acknowledgement = 0;
}

static void align(void) {
	stage = ALIGNING;
	peer_ready = 0;
	send_status(ALIGNMENT);
}

static void prove(void) {
	stage = PROVING;
	proving_until = now_ms() + PROVING_MS;
	repeat_at = 0;
}

static void enter_if_ready(void) {
	if (stage != READY_SENT || !peer_ready) return;
	stage = IN_SERVICE;
	say("in service");
}

static void hear_status(unsigned status) {
	if (status == OUT_OF_SERVICE && stage == IN_SERVICE) fail("the peer took the link out of service");
	if (stage == IN_SERVICE && status == ALIGNMENT) fail("the peer aligns while the link is in service");
	if ((status == ALIGNMENT || status == PROVING_NORMAL || status == PROVING_EMERGENCY) && stage == ALIGNING) prove();
	if (status == READY) {
		peer_ready = 1;
		enter_if_ready();
	}
}

/* the BSN confirms no fewer than before, and no more than were sent */
static void hear_bsn(unsigned bsn) {
	unsigned newly = (bsn + NUMBERS - number_of(acknowledged)) % NUMBERS;
	if (newly > sent - acknowledged) fail("a BSN out of range");
	acknowledged += newly;
}

static void hear_field(const unsigned char *field, unsigned length) {
	unsigned number;
	if (length < 8) fail("a field that is too short");
	memcpy(&number, field + LABEL, sizeof number);
	number = ntohl(number);
	if (number < next_number) fail("a message that came before");
	if (number != next_number && !stays) fail("a message out of order");
	skipped += number - next_number;
	if (length != field_length(number)) fail("a message of another length");
	for (unsigned i = 8; i < length; i++)
		if (field[i] != (unsigned char)(i + number)) fail("other octets");
	next_number = number + 1;
	received++;
}

static void hear_frame(const unsigned char *text, unsigned length, int stream) {
	unsigned parts[3];
	if (length < HEADER || text[0] != 1 || text[2] != 11) fail("no frame of M2PA");
	memcpy(parts, text + 4, sizeof parts);
	if (ntohl(parts[0]) != length) fail("a wrong length field");
	unsigned bsn = ntohl(parts[1]) % NUMBERS, fsn = ntohl(parts[2]) % NUMBERS;
	if (text[3] == LINK_STATUS) {
		if (stream != STATUS_STREAM) fail("Link Status on another stream than 0");
		if (length < HEADER + 4) fail("a Link Status that is too short");
		hear_status(text[HEADER + 3]);
		return;
	}
	if (text[3] != USER_DATA) fail("an unknown message type");
	if (stream != DATA_STREAM) fail("User Data on another stream than 1");
	/* the peer may enter service by our Ready before its own has come: then its User Data says so (RFC 4165 §4.1.3) */
	hear_bsn(bsn);
	if (length == HEADER) {
		if (fsn != last_accepted) fail("an empty User Data with another FSN");
		return;
	}
	if (fsn != (last_accepted + 1) % NUMBERS) fail("an FSN out of turn");
	last_accepted = fsn;
	owes_acknowledgement = 1;
#ifdef LOAD
	if ((text[HEADER + 1] & 15) == 0) return; /* management of a node in between */
#endif
	hear_field(text + HEADER + 2, length - HEADER - 2);
}

static void begin(const char *mode, unsigned far_port);

/* the association is over. Where this end stays, it gives up what isn't acknowledged, and goes on with the next */
static void lose(const char *why) {
	if (!stays) fail(why);
	say("lost: %s", why);
	stage = DOWN;
	association = 0;
	given_up += sent - acknowledged;
	before = acknowledged = sent;
	last_accepted = NUMBERS - 1;
	owes_acknowledgement = 0;
	if (!strcmp(own_mode, "connect")) begin(own_mode, own_far_port);
}

static void end_association(void) {
	struct sctp_sndinfo info;
	memset(&info, 0, sizeof info);
	info.snd_assoc_id = association;
	info.snd_flags = !strcmp(ending, "abort") ? SCTP_ABORT : SCTP_EOF;
	ending = NULL;
	if (usrsctp_sendv(sock, "", 0, NULL, 0, &info, sizeof info, SCTP_SENDV_SNDINFO, 0) < 0) fail(strerror(errno));
	stage = DOWN;
}

static void note(const union sctp_notification *n) {
	if (n->sn_header.sn_type != SCTP_ASSOC_CHANGE) return;
	switch (n->sn_assoc_change.sac_state) {
	case SCTP_COMM_UP:
		association = n->sn_assoc_change.sac_assoc_id;
		say("up");
		align();
		break;
	case SCTP_RESTART:
		lose("the peer restarted the association");
		association = n->sn_assoc_change.sac_assoc_id;
		align();
		break;
	case SCTP_COMM_LOST: lose("the association was lost"); break;
	case SCTP_SHUTDOWN_COMP: lose("the association was shut down"); break;
	case SCTP_CANT_STR_ASSOC: lose("no association came to be"); break;
	}
}

/* what came; false where nothing did */
static int hear(void) {
	static unsigned char text[1 << 16];
	struct sctp_rcvinfo info;
	struct sockaddr_in from;
	socklen_t info_length = sizeof info, from_length = sizeof from;
	unsigned type;
	int flags = 0;
	memset(&info, 0, sizeof info);
	ssize_t n = usrsctp_recvv(sock, text, sizeof text, (struct sockaddr *)&from, &from_length, &info, &info_length,
	                          &type, &flags);
	if (n <= 0) return 0;
	if (flags & MSG_NOTIFICATION) note((union sctp_notification *)text);
	else if (ntohl(info.rcv_ppid) != PROTOCOL) fail("another payload protocol identifier than 5");
	else hear_frame(text, n, info.rcv_sid);
	return 1;
}

static void act(void) {
	long now = now_ms();
	if (stage == PROVING && now >= proving_until) {
		stage = READY_SENT;
		send_status(READY);
		enter_if_ready();
	} else if (stage == PROVING && now >= repeat_at) {
		send_status(PROVING_NORMAL);
		repeat_at = now + REPEAT_MS;
	}
	if (stage != IN_SERVICE) return;
	if (ending && received >= ends_after) {
		end_association();
		return;
	}
	while (may_send() && send_message()) {}
	if (owes_acknowledgement) acknowledge();
}

static void set(int level, int name, const void *value, socklen_t length) {
	if (usrsctp_setsockopt(sock, level, name, value, length) < 0) fail("setsockopt");
}

static void prepare(unsigned far_udp_port, unsigned port) {
	int on = 1, room = 1 << 20;
	usrsctp_sysctl_set_sctp_no_csum_on_loopback(0);
	usrsctp_sysctl_set_sctp_rto_min_default(100);
	usrsctp_sysctl_set_sctp_rto_max_default(1000);
	usrsctp_sysctl_set_sctp_rto_initial_default(300);
	usrsctp_sysctl_set_sctp_heartbeat_interval_default(500); /* an idle end, too, is to notice that its peer is gone */
	usrsctp_sysctl_set_sctp_delayed_sack_time_default(20);
	sock = usrsctp_socket(AF_INET, SOCK_SEQPACKET, IPPROTO_SCTP, NULL, NULL, 0, NULL);
	if (!sock) fail("no socket");
	set(SOL_SOCKET, SO_SNDBUF, &room, sizeof room);
	set(SOL_SOCKET, SO_RCVBUF, &room, sizeof room);
	struct sctp_initmsg init = {.sinit_num_ostreams = 2, .sinit_max_instreams = 2};
	set(IPPROTO_SCTP, SCTP_INITMSG, &init, sizeof init);
	set(IPPROTO_SCTP, SCTP_RECVRCVINFO, &on, sizeof on);
#ifndef LOAD
	set(IPPROTO_SCTP, SCTP_NODELAY, &on, sizeof on);
#endif
	struct sctp_event event = {.se_assoc_id = SCTP_FUTURE_ASSOC, .se_type = SCTP_ASSOC_CHANGE, .se_on = 1};
	set(IPPROTO_SCTP, SCTP_EVENT, &event, sizeof event);
	struct sctp_udpencaps encapsulation;
	memset(&encapsulation, 0, sizeof encapsulation);
	encapsulation.sue_address.ss_family = AF_INET;
	encapsulation.sue_port = htons(far_udp_port);
	set(IPPROTO_SCTP, SCTP_REMOTE_UDP_ENCAPS_PORT, &encapsulation, sizeof encapsulation);
	struct sockaddr_in own = {.sin_family = AF_INET, .sin_port = htons(port)};
	inet_pton(AF_INET, "127.0.0.1", &own.sin_addr);
	if (usrsctp_bind(sock, (struct sockaddr *)&own, sizeof own) < 0) fail("bind");
	usrsctp_set_non_blocking(sock, 1);
}

static void begin(const char *mode, unsigned far_port) {
	struct sockaddr_in far = {.sin_family = AF_INET, .sin_port = htons(far_port)};
	inet_pton(AF_INET, "127.0.0.1", &far.sin_addr);
	if (!strcmp(mode, "listen")) {
		if (usrsctp_listen(sock, 1) < 0) fail("listen");
	} else if (usrsctp_connect(sock, (struct sockaddr *)&far, sizeof far) < 0 && errno != EINPROGRESS) fail("connect");
}

static void over(int number) { is_over = number; }

static void read_more(int argc, char **argv) {
	if (argc < 11) return;
	stays = !strcmp(argv[9], "stay");
	first = atoi(argv[10]);
	if (argc < 13) return;
	ending = argv[11];
	ends_after = atoi(argv[12]);
}

int main(int argc, char **argv) {
	if (argc < 9) return 2;
	read_more(argc, argv);
	signal(SIGTERM, over);
	own_mode = argv[5];
	own_far_port = atoi(argv[4]);
	opc = atoi(argv[6]);
	dpc = atoi(argv[7]);
	count = atoi(argv[8]);
	usrsctp_init(atoi(argv[1]), NULL, NULL);
	prepare(atoi(argv[2]), atoi(argv[3]));
	begin(argv[5], atoi(argv[4]));
	say("ready");
	long start = now_ms(), done_at = 0;
	for (;;) {
		int heard = 0;
		while (heard < 64 && hear()) heard++;
		act();
		/* the peer may still need acknowledgements: it is given some time */
		if (is_over) {
			say("over: sent %u acknowledged %u given up %u received %u skipped %u", sent, acknowledged - given_up,
			    given_up, received, skipped);
			_exit(0);
		}
		int done = !stays && stage == IN_SERVICE && acknowledged == count && received == count;
		if (done && !done_at) done_at = now_ms();
		if (done_at && now_ms() >= done_at + LINGER_MS) break;
		if (now_ms() >= start + LIMIT_MS) fail("time is up");
		if (!heard) usleep(500);
	}
	say("done: sent %u acknowledged %u received %u in %ld ms", sent, acknowledged, received, done_at - start);
	_exit(0);
}
