/* Numbers and fields of the NVM Express Base, NVM Command Set, NVMe over Fabrics and NVMe/RDMA Transport specifications. The
 * offset of a field is in octets; a field of several octets has the lowest first. */
#ifndef NVME_H
#define NVME_H

#include "system.h"

/* Capsules. */
enum { SQE_OCTETS = 64, CQE_OCTETS = 16, CONNECT_OCTETS = 1024, IDENTIFY_OCTETS = 4096, NQN_OCTETS = 256, MOST_NQN = 223, HOST_ID_OCTETS = 16 };

/* A submission queue entry: a command. Bits 0 and 1 of its flags fuse it with another, bits 6 and 7 (PSDT) tell what describes
 * its data; over a fabric that is one SGL descriptor. */
enum { SQE_OPCODE = 0, SQE_FLAGS = 1, SQE_CID = 2, SQE_FCTYPE = 4, SQE_NSID = 4, SQE_SGL = 24 };
enum { SQE_CDW10 = 40, SQE_CDW11 = 44, SQE_CDW12 = 48, SQE_CDW13 = 52 };
enum { FLAGS_FUSE = 0x03, FLAGS_PSDT = 0xc0, PSDT_SGL = 0x40 };

/* A completion queue entry: a response. Its status field is the status of this file one bit to the left. */
enum { CQE_RESULT = 0, CQE_SQHD = 8, CQE_SQID = 10, CQE_CID = 12, CQE_STATUS = 14 };
enum { SQHD_NOT_USED = 0xffff };

/* An SGL descriptor. A keyed one names the host's memory: address, length of 3 octets, key. The other is for data in the
 * capsule: offset, length of 4 octets. */
enum { SGL_ADDRESS = 0, SGL_LENGTH = 8, SGL_KEY = 11, SGL_TYPE = 15 };
enum { SGL_DATA_OFFSET = 0x01, SGL_KEYED = 0x40, SGL_KEYED_INVALIDATE = 0x4f };

/* Opcodes of admin commands. */
enum {
    ADMIN_GET_LOG_PAGE = 0x02,
    ADMIN_IDENTIFY = 0x06,
    ADMIN_ABORT = 0x08,
    ADMIN_SET_FEATURES = 0x09,
    ADMIN_GET_FEATURES = 0x0a,
    ADMIN_ASYNC_EVENT = 0x0c,
    ADMIN_KEEP_ALIVE = 0x18
};

/* Opcodes of I/O commands. */
enum { IO_FLUSH = 0x00, IO_WRITE = 0x01, IO_READ = 0x02, IO_WRITE_ZEROES = 0x08, IO_DATASET_MANAGEMENT = 0x09 };

/* Fabrics commands have one opcode, and types. */
enum { OPCODE_FABRICS = 0x7f, FABRICS_PROPERTY_SET = 0x00, FABRICS_CONNECT = 0x01, FABRICS_PROPERTY_GET = 0x04 };

/* Status: the code, and above it the code's type. */
enum {
    STATUS_SUCCESS = 0x000,
    STATUS_INVALID_OPCODE = 0x001,
    STATUS_INVALID_FIELD = 0x002,
    STATUS_DATA_TRANSFER_ERROR = 0x004,
    STATUS_QUEUE_DELETED = 0x008,
    STATUS_INVALID_NAMESPACE = 0x00b,
    STATUS_COMMAND_SEQUENCE_ERROR = 0x00c,
    STATUS_DATA_SGL_LENGTH_INVALID = 0x00f,
    STATUS_SGL_TYPE_INVALID = 0x011,
    STATUS_SGL_OFFSET_INVALID = 0x016,
    STATUS_WRITE_PROTECTED = 0x020,
    STATUS_LBA_OUT_OF_RANGE = 0x080,
    STATUS_CAPACITY_EXCEEDED = 0x081,
    STATUS_ASYNC_EVENT_LIMIT = 0x105,
    STATUS_INVALID_LOG_PAGE = 0x109,
    STATUS_CONNECT_FORMAT = 0x180,
    STATUS_CONNECT_BUSY = 0x181,
    STATUS_CONNECT_INVALID = 0x182,
    STATUS_CONNECT_HOST = 0x184,
    STATUS_WRITE_FAULT = 0x280,
    STATUS_UNRECOVERED_READ = 0x281,
    STATUS_DO_NOT_RETRY = 0x4000
};

/* Connect: fields of the command and of its data; what its result says of a field that is not valid. */
enum { CONNECT_RECFMT = 40, CONNECT_QID = 42, CONNECT_SQSIZE = 44, CONNECT_CATTR = 46, CONNECT_KATO = 48 };
enum { CATTR_NO_SQ_FLOW = 0x04 };
enum { CONNECT_HOST_ID = 0, CONNECT_CNTLID = 16, CONNECT_SUBNQN = 256, CONNECT_HOSTNQN = 512 };
enum { CNTLID_DYNAMIC = 0xffff, CNTLID_MOST = 0xffef, INVALID_IN_DATA = 1 << 16 };

/* Properties, and the fields of Property Get and Set. */
enum { PROPERTY_ATTRIB = 40, PROPERTY_OFFSET = 44, PROPERTY_VALUE = 48, ATTRIB_SIZE = 0x07, ATTRIB_FOUR = 0, ATTRIB_EIGHT = 1 };
enum { PROPERTY_CAP = 0x00, PROPERTY_VS = 0x08, PROPERTY_CC = 0x14, PROPERTY_CSTS = 0x1c };
enum { VERSION_1_3 = 0x10300 };
enum { CAP_CQR = 1 << 16, CAP_TO = 24, CAP_CSS_NVM = 37 }; /* TO and CSS by their first bit; TO is in units of 500 ms */
enum { CC_ENABLE = 1, CC_CSS = 0x70, CC_MPS = 0x780, CC_AMS = 0x3800, CC_SHN = 0xc000, CC_IOSQES = 16, CC_IOCQES = 20, CC_ENTRY = 0xf };
enum { CSTS_READY = 1, CSTS_FATAL = 2, CSTS_SHUTDOWN = 0xc, CSTS_SHUTDOWN_GOES_ON = 4, CSTS_SHUTDOWN_DONE = 8 };
enum { SQES_64 = 6, CQES_16 = 4 };

/* Identify: what is asked for (CNS), and fields of the controller and of the namespace. */
enum { CNS_NAMESPACE = 0, CNS_CONTROLLER = 1, CNS_NAMESPACE_LIST = 2, CNS_DESCRIPTORS = 3 };
enum { ID_SN = 4, ID_MN = 24, ID_FR = 64, ID_CMIC = 76, ID_MDTS = 77, ID_CNTLID = 78, ID_VER = 80, ID_CTRATT = 96, ID_CNTRLTYPE = 111 };
enum { ID_ACL = 258, ID_AERL = 259, ID_FRMW = 260, ID_LPA = 261, ID_KAS = 320, ID_SQES = 512, ID_CQES = 513, ID_MAXCMD = 514 };
enum { ID_NN = 516, ID_ONCS = 520, ID_VWC = 525, ID_SGLS = 536, ID_SUBNQN = 768 };
enum { ID_IOCCSZ = 1792, ID_IORCSZ = 1796, ID_ICDOFF = 1800, ID_MSDBD = 1803 };
enum { SN_OCTETS = 20, MN_OCTETS = 40, FR_OCTETS = 8 };
enum { CMIC_CONTROLLERS = 2, CTRATT_HOST_ID_128 = 1, CTRATT_TBKAS = 0x40, TYPE_IO = 1, TYPE_DISCOVERY = 2, FRMW_ONE_READ_ONLY = 3 };
enum { LPA_EFFECTS = 2, LPA_EXTENDED = 4, ONCS_DEALLOCATE = 4, ONCS_WRITE_ZEROES = 8, VWC_PRESENT = 1 };
enum { SGLS_SUPPORTED = 1, SGLS_KEYED = 1 << 2, SGLS_OFFSETS = 1 << 20 };
enum { NS_NSZE = 0, NS_NCAP = 8, NS_NUSE = 16, NS_NMIC = 30, NS_NSATTR = 99, NS_NGUID = 104, NS_LBADS = 130, NGUID_OCTETS = 16 };
enum { NMIC_SHARED = 1, NSATTR_WRITE_PROTECTED = 1, DESCRIPTOR_NGUID = 2, DESCRIPTOR_UUID = 3, DESCRIPTOR_HEAD = 4 };
enum { NSID = 1, NSID_LIST_MOST = 0xfffffffd };

/* Get Log Page: pages, and fields of some of them. */
enum { LOG_ERRORS = 0x01, LOG_HEALTH = 0x02, LOG_FIRMWARE = 0x03, LOG_EFFECTS = 0x05, LOG_DISCOVERY = 0x70 };
enum { HEALTH_WARNINGS = 0, HEALTH_TEMPERATURE = 1, HEALTH_SPARE = 3, HEALTH_THRESHOLD = 4, HEALTH_MEDIA_ERRORS = 160 };
enum { HEALTH_ERROR_ENTRIES = 176, WARNS_TEMPERATURE = 2, WARNS_RELIABILITY = 4, WARNS_READ_ONLY = 8, KELVIN = 300 };
enum { ERROR_COUNT = 0, ERROR_SQID = 8, ERROR_CID = 10, ERROR_STATUS = 12, ERROR_FIELD = 14, ERROR_LBA = 16, ERROR_NSID = 24 };
enum { ERROR_NOT_TOLD = 0xffff, ERROR_OCTETS = 64, FIRMWARE_ACTIVE = 0, FIRMWARE_SLOT_1 = 8 };
enum { EFFECTS_ADMIN = 0, EFFECTS_IO = 1024, EFFECT_SUPPORTED = 1, EFFECT_CHANGES = 2 };
enum { DISCOVERY_GENCTR = 0, DISCOVERY_NUMREC = 8, DISCOVERY_ENTRY = 1024 };
enum { ENTRY_TRTYPE = 0, ENTRY_ADRFAM = 1, ENTRY_SUBTYPE = 2, ENTRY_PORTID = 4, ENTRY_CNTLID = 6, ENTRY_ASQSZ = 8, ENTRY_TRSVCID = 32 };
enum { ENTRY_SUBNQN = 256, ENTRY_TRADDR = 512, ENTRY_TSAS_QPTYPE = 768, ENTRY_TSAS_PRTYPE = 769, ENTRY_TSAS_CMS = 770 };
enum { TRSVCID_OCTETS = 32, TRADDR_OCTETS = 256 };
enum { TRTYPE_RDMA = 1, ADRFAM_IPV4 = 1, SUBTYPE_NVM = 2, QPTYPE_CONNECTED = 1, PRTYPE_IWARP = 5, CMS_RDMA_CM = 1 };
#define DISCOVERY_NQN "nqn.2014-08.org.nvmexpress.discovery"
#define UUID_NQN "nqn.2014-08.org.nvmexpress:uuid:" /* and a UUID */

/* Features. */
enum { FEATURE_ARBITRATION = 0x01, FEATURE_POWER = 0x02, FEATURE_TEMPERATURE = 0x04, FEATURE_ERROR_RECOVERY = 0x05 };
enum { FEATURE_WRITE_CACHE = 0x06, FEATURE_QUEUES = 0x07, FEATURE_ATOMICITY = 0x0a, FEATURE_ASYNC_EVENTS = 0x0b };
enum { FEATURE_KEEP_ALIVE = 0x0f, FEATURE_HOST_ID = 0x81, HOST_ID_128 = 1, RECOVERY_TLER = 0xffff, RECOVERY_DULBE = 0x10000 };
enum { TEMPERATURE_SENSOR = 16, TEMPERATURE_ALL = 0xf, TEMPERATURE_KIND = 20 }; /* of the threshold: first bits */

/* The result of an Async Event Request: the event's type, what it is, and the log page that tells more. */
enum { EVENT_OF_HEALTH = 1, EVENT_WHAT = 8, EVENT_PAGE = 16, EVENT_RELIABILITY = 0, EVENT_TEMPERATURE = 1 };

/* Read and Write: fields of command dword 12. Dataset Management: its attribute, and a range. */
enum { RW_NLB = 0xffff, RW_PRINFO = 0x3c000000, RW_FUA = 1 << 30 };
enum { DSM_DEALLOCATE = 4, MOST_RANGES = 256, RANGE_OCTETS = 16, RANGE_NLB = 4, RANGE_SLBA = 8 };

/* The private data of the MPA Request and Reply; a rejection's has a format and a status. */
enum { PRIVATE_OCTETS = 32, PRIVATE_RECFMT = 0, PRIVATE_QID = 2, PRIVATE_HRQSIZE = 4, PRIVATE_HSQSIZE = 6, PRIVATE_CRQSIZE = 2 };
enum { REJECT_OCTETS = 4, REJECT_STATUS = 2 };
enum { REJECT_LENGTH = 1, REJECT_RECFMT = 2, REJECT_HSQSIZE = 4, REJECT_HRQSIZE = 5, REJECT_NO_RESOURCES = 6 };

/* Reads a field of n octets. */
static inline uint64_t field(const uint8_t *at, int n) {
    uint64_t number = 0;
    while (n > 0) number = number << 8 | at[--n];
    return number;
}

/* Writes a field of n octets. */
static inline void set_field(uint8_t *at, int n, uint64_t number) {
    for (int i = 0; i < n; i++, number >>= 8) at[i] = (uint8_t)number;
}

#endif
