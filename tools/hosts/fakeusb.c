/* One MTP device without USB: the functions of libusb-1.0 that hosts call, for a device at the end of a socket.

     gcc -shared -fPIC -O1 -Wall -o fakeusb.so fakeusb.c
     FAKEUSB=SOCKET LD_PRELOAD=./fakeusb.so mtp-detect

   The other end is over_usb.py. Bulk transfers and the requests of the still image class go there; descriptors are answered here.
   FAKEUSB_PACKET=64 makes it a device at full speed, with packets of 64 bytes and not 512.
   There are no events, so a transfer that is submitted waits until it is cancelled. */

#include <errno.h>
#include <libusb-1.0/libusb.h>
#include <pthread.h>
#include <stdint.h>
#include <stdio.h>
#include <stdlib.h>
#include <string.h>
#include <sys/socket.h>
#include <sys/un.h>
#include <unistd.h>

enum { BULK_IN = 0x81, BULK_OUT = 0x02, INTERRUPT_IN = 0x83, EVENT_PACKET = 28 };

/* The bus has one device; it is told from a real one by its address alone. */
struct libusb_device { int unused; };
struct libusb_device_handle { int unused; };
static struct libusb_device device;
static struct libusb_device_handle handle;

static struct libusb_endpoint_descriptor endpoints[] = {
	{ .bLength = 7, .bDescriptorType = LIBUSB_DT_ENDPOINT, .bEndpointAddress = BULK_IN, .bmAttributes = 2, .wMaxPacketSize = 512 },
	{ .bLength = 7, .bDescriptorType = LIBUSB_DT_ENDPOINT, .bEndpointAddress = BULK_OUT, .bmAttributes = 2, .wMaxPacketSize = 512 },
	{ .bLength = 7, .bDescriptorType = LIBUSB_DT_ENDPOINT, .bEndpointAddress = INTERRUPT_IN, .bmAttributes = 3,
	  .wMaxPacketSize = EVENT_PACKET, .bInterval = 6 },
};
static const struct libusb_interface_descriptor alternate = {
	.bLength = 9, .bDescriptorType = LIBUSB_DT_INTERFACE, .bNumEndpoints = 3, .bInterfaceClass = LIBUSB_CLASS_IMAGE,
	.bInterfaceSubClass = 1, .bInterfaceProtocol = 1, .iInterface = 4, .endpoint = endpoints,
};
static const struct libusb_interface interface = { .altsetting = &alternate, .num_altsetting = 1 };
static struct libusb_config_descriptor configuration = {
	.bLength = 9, .bDescriptorType = LIBUSB_DT_CONFIG, .wTotalLength = 39, .bNumInterfaces = 1, .bConfigurationValue = 1,
	.bmAttributes = 0xC0, .MaxPower = 50, .interface = &interface,
};
static const struct libusb_device_descriptor description = {
	.bLength = 18, .bDescriptorType = LIBUSB_DT_DEVICE, .bcdUSB = 0x0200, .bMaxPacketSize0 = 64, .idVendor = 0x1209,
	.idProduct = 0x0001, .bcdDevice = 0x0100, .iManufacturer = 1, .iProduct = 2, .iSerialNumber = 3, .bNumConfigurations = 1,
};
static const char *const strings[] = { "", "Spares", "Drip", "0", "MTP" };
enum { STRINGS = sizeof strings / sizeof strings[0] };

/* The socket */

static pthread_mutex_t mutex = PTHREAD_MUTEX_INITIALIZER;
static int cable = -1;

static int plug_in(void)
{
	const char *path = getenv("FAKEUSB");
	struct sockaddr_un address = { .sun_family = AF_UNIX };
	if (cable >= 0)
		return 0;
	if (!path || strlen(path) >= sizeof address.sun_path)
		return LIBUSB_ERROR_NO_DEVICE;
	strcpy(address.sun_path, path);
	cable = socket(AF_UNIX, SOCK_STREAM | SOCK_CLOEXEC, 0);
	if (cable < 0 || connect(cable, (struct sockaddr *)&address, sizeof address) < 0)
		return LIBUSB_ERROR_NO_DEVICE;
	return 0;
}

static int write_all(const void *from, size_t count)
{
	for (const char *at = from; count > 0;) {
		ssize_t done = send(cable, at, count, MSG_NOSIGNAL);
		if (done < 0 && errno == EINTR)
			continue;
		if (done <= 0)
			return LIBUSB_ERROR_NO_DEVICE;
		at += done;
		count -= done;
	}
	return 0;
}

static int read_all(void *into, size_t count)
{
	for (char *at = into; count > 0;) {
		ssize_t done = read(cable, at, count);
		if (done < 0 && errno == EINTR)
			continue;
		if (done <= 0)
			return LIBUSB_ERROR_NO_DEVICE;
		at += done;
		count -= done;
	}
	return 0;
}

/* Sends a message and waits for the answer, whose bytes are at most `room`. */
static int exchange(char kind, uint32_t number, const void *bytes, uint32_t length, void *into, uint32_t room, uint32_t *got)
{
	struct __attribute__((packed)) { char kind; uint32_t number, length; } message = { kind, number, length };
	struct __attribute__((packed)) { int32_t status; uint32_t length; } answer;
	int status;
	*got = 0;
	pthread_mutex_lock(&mutex);
	status = plug_in();
	if (!status)
		status = write_all(&message, sizeof message);
	if (!status)
		status = write_all(bytes, length);
	if (!status)
		status = read_all(&answer, sizeof answer);
	if (!status && answer.length > room)
		status = LIBUSB_ERROR_NO_DEVICE;
	if (!status)
		status = read_all(into, answer.length);
	if (!status) {
		*got = answer.length;
		status = answer.status;
	}
	pthread_mutex_unlock(&mutex);
	return status;
}

static int note(const char *words)
{
	uint32_t got;
	return exchange('N', 0, words, strlen(words), NULL, 0, &got);
}

/* Bus and device */

int libusb_init(libusb_context **context)
{
	const char *packet = getenv("FAKEUSB_PACKET");
	if (packet)
		endpoints[0].wMaxPacketSize = endpoints[1].wMaxPacketSize = atoi(packet);
	if (context)
		*context = (libusb_context *)&device;
	return 0;
}

void libusb_exit(libusb_context *context) { (void)context; }
void libusb_set_debug(libusb_context *context, int level) { (void)context; (void)level; }
int libusb_set_option(libusb_context *context, enum libusb_option option, ...) { (void)context; (void)option; return 0; }

ssize_t libusb_get_device_list(libusb_context *context, libusb_device ***list)
{
	(void)context;
	*list = calloc(2, sizeof **list);
	if (!*list)
		return LIBUSB_ERROR_NO_MEM;
	(*list)[0] = &device;
	return 1;
}

void libusb_free_device_list(libusb_device **list, int unref) { (void)unref; free(list); }
libusb_device *libusb_ref_device(libusb_device *dev) { return dev; }
void libusb_unref_device(libusb_device *dev) { (void)dev; }
uint8_t libusb_get_bus_number(libusb_device *dev) { (void)dev; return 1; }
uint8_t libusb_get_device_address(libusb_device *dev) { (void)dev; return 2; }
int libusb_get_device_speed(libusb_device *dev)
{
	(void)dev;
	return endpoints[0].wMaxPacketSize == 64 ? LIBUSB_SPEED_FULL : LIBUSB_SPEED_HIGH;
}


int libusb_get_device_descriptor(libusb_device *dev, struct libusb_device_descriptor *into)
{
	(void)dev;
	*into = description;
	return 0;
}

int libusb_get_config_descriptor(libusb_device *dev, uint8_t index, struct libusb_config_descriptor **into)
{
	(void)dev;
	if (index > 0)
		return LIBUSB_ERROR_NOT_FOUND;
	*into = &configuration;
	return 0;
}

int libusb_get_active_config_descriptor(libusb_device *dev, struct libusb_config_descriptor **into)
{
	return libusb_get_config_descriptor(dev, 0, into);
}

int libusb_get_config_descriptor_by_value(libusb_device *dev, uint8_t value, struct libusb_config_descriptor **into)
{
	return libusb_get_config_descriptor(dev, value - 1, into);
}

void libusb_free_config_descriptor(struct libusb_config_descriptor *config) { (void)config; }

int libusb_get_max_packet_size(libusb_device *dev, unsigned char endpoint)
{
	(void)dev;
	return endpoint == INTERRUPT_IN ? EVENT_PACKET : endpoints[0].wMaxPacketSize;
}

int libusb_get_max_iso_packet_size(libusb_device *dev, unsigned char endpoint) { return libusb_get_max_packet_size(dev, endpoint); }

/* A handle */

int libusb_open(libusb_device *dev, libusb_device_handle **into) { (void)dev; *into = &handle; return note("host opens the device"); }
void libusb_close(libusb_device_handle *dev) { (void)dev; note("host closes the device"); }
libusb_device *libusb_get_device(libusb_device_handle *dev) { (void)dev; return &device; }
int libusb_get_configuration(libusb_device_handle *dev, int *into) { (void)dev; *into = 1; return 0; }
int libusb_set_configuration(libusb_device_handle *dev, int value) { (void)dev; (void)value; return note("host sets the configuration"); }
int libusb_claim_interface(libusb_device_handle *dev, int number) { (void)dev; (void)number; return note("host claims the interface"); }
int libusb_release_interface(libusb_device_handle *dev, int number) { (void)dev; (void)number; return 0; }
int libusb_set_interface_alt_setting(libusb_device_handle *dev, int number, int setting)
{
	(void)dev, (void)number, (void)setting;
	return note("host sets the alternate setting");
}

int libusb_kernel_driver_active(libusb_device_handle *dev, int number) { (void)dev; (void)number; return 0; }
int libusb_detach_kernel_driver(libusb_device_handle *dev, int number) { (void)dev; (void)number; return 0; }
int libusb_attach_kernel_driver(libusb_device_handle *dev, int number) { (void)dev; (void)number; return 0; }

int libusb_clear_halt(libusb_device_handle *dev, unsigned char endpoint)
{
	char words[40];
	(void)dev;
	snprintf(words, sizeof words, "host clears the halt of 0x%02x", endpoint);
	return note(words);
}

int libusb_reset_device(libusb_device_handle *dev)
{
	uint32_t got;
	(void)dev;
	note("host resets the port");
	return exchange('R', 0, NULL, 0, NULL, 0, &got);
}

/* Transfers */

int libusb_get_string_descriptor_ascii(libusb_device_handle *dev, uint8_t index, unsigned char *into, int room)
{
	(void)dev;
	if (index == 0 || index >= STRINGS)
		return LIBUSB_ERROR_PIPE;
	return snprintf((char *)into, room, "%s", strings[index]);
}

/* String descriptors as they are on the wire: string 0 has the language. */
static int string_descriptor(uint8_t index, unsigned char *into, int room)
{
	unsigned char bytes[64] = { 4, LIBUSB_DT_STRING, 0x09, 0x04 };
	if (index >= STRINGS)
		return LIBUSB_ERROR_PIPE;
	if (index > 0) {
		bytes[0] = 2 + 2 * strlen(strings[index]);
		for (int at = 0; strings[index][at]; at++) {
			bytes[2 + 2 * at] = strings[index][at];
			bytes[3 + 2 * at] = 0;
		}
	}
	room = room < bytes[0] ? room : bytes[0];
	memcpy(into, bytes, room);
	return room;
}

int libusb_control_transfer(libusb_device_handle *dev, uint8_t type, uint8_t request, uint16_t value, uint16_t index,
	unsigned char *data, uint16_t length, unsigned int timeout)
{
	unsigned char message[8 + 64] = { type, request, value, value >> 8, index, index >> 8, length, length >> 8 };
	int to_host = type & LIBUSB_ENDPOINT_IN;
	uint32_t got, sent = to_host ? 0 : length;
	int status;
	(void)dev, (void)timeout;
	if (type == LIBUSB_ENDPOINT_IN && request == LIBUSB_REQUEST_GET_DESCRIPTOR && value >> 8 == LIBUSB_DT_STRING)
		return string_descriptor(value & 0xFF, data, length);
	if (sent > 64)
		return LIBUSB_ERROR_PIPE;
	memcpy(message + 8, data, sent);
	status = exchange('C', 0, message, 8 + sent, data, to_host ? length : 0, &got);
	return status ? status : (int)(to_host ? got : sent);
}

int libusb_bulk_transfer(libusb_device_handle *dev, unsigned char endpoint, unsigned char *data, int length, int *done,
	unsigned int timeout)
{
	uint32_t got = 0;
	int status;
	(void)dev, (void)timeout;
	if (endpoint == BULK_OUT) {
		status = exchange('O', 0, data, length, NULL, 0, &got);
		got = status ? 0 : length;
	} else if (endpoint == BULK_IN) {
		status = exchange('I', length, NULL, 0, data, length, &got);
	} else {
		status = LIBUSB_ERROR_TIMEOUT;
	}
	if (done)
		*done = got;
	return status;
}

int libusb_interrupt_transfer(libusb_device_handle *dev, unsigned char endpoint, unsigned char *data, int length, int *done,
	unsigned int timeout)
{
	return libusb_bulk_transfer(dev, endpoint, data, length, done, timeout);
}

/* Submitted transfers: none ever ends but by being cancelled, and then at the next look for events. */

enum { WAITING_MOST = 64 };
static struct libusb_transfer *cancelled[WAITING_MOST];
static int cancelled_count;

struct libusb_transfer *libusb_alloc_transfer(int packets) { (void)packets; return calloc(1, sizeof(struct libusb_transfer)); }
void libusb_free_transfer(struct libusb_transfer *transfer) { free(transfer); }
int libusb_submit_transfer(struct libusb_transfer *transfer) { (void)transfer; return 0; }

int libusb_cancel_transfer(struct libusb_transfer *transfer)
{
	if (cancelled_count == WAITING_MOST)
		return LIBUSB_ERROR_NOT_FOUND;
	cancelled[cancelled_count++] = transfer;
	return 0;
}

int libusb_handle_events(libusb_context *context)
{
	(void)context;
	while (cancelled_count > 0) {
		struct libusb_transfer *transfer = cancelled[--cancelled_count];
		transfer->status = LIBUSB_TRANSFER_CANCELLED;
		transfer->actual_length = 0;
		transfer->callback(transfer);
	}
	return 0;
}

int libusb_handle_events_timeout(libusb_context *context, struct timeval *timeout)
{
	if (cancelled_count == 0 && timeout)
		usleep(timeout->tv_sec ? 100000 : timeout->tv_usec);
	return libusb_handle_events(context);
}

int libusb_handle_events_timeout_completed(libusb_context *context, struct timeval *timeout, int *completed)
{
	(void)completed;
	return libusb_handle_events_timeout(context, timeout);
}
