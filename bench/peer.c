// The yardstick of the benchmark: Urvendlo's job in plain C, written for speed, of all four kinds of herd. A farm file
// on standard input; what `urvendlo figures` prints for it, its listing or its refusal, on standard output, in the same
// bytes. A letter says where a file comes from, which gives its limits: s for standard input, c for a cooperative.
//
//   peer [LETTER]  one farm file; without a letter one on standard input
//   peer cases     farm files one after the other, each behind its length in four bytes, the lowest first, and a
//                  letter: for each what `figures`, `notes`, `cuts`, `why`, `why --words` and `write` print, as
//                  crates/test_vectors does
//   peer repeat    a mode, a letter, how often in eight digits, and a farm file: repeats the work inside the process
//                  and prints one checksum, as the program `bench_repeat` does. The mode is w for the whole job, r for
//                  reading alone, l for what comes after reading: figures and listing
#include <stdint.h>
#include <stdio.h>
#include <stdlib.h>
#include <string.h>
#include <unistd.h>

enum { SLOTS = 9, LABEL_MOST = 16 };

// The most bytes of a file and the most herds of its farm, from standard input and from a cooperative.
enum { INPUT_BYTES = 65536, INPUT_HERDS = 64, COOPERATIVE_BYTES = 262144, COOPERATIVE_HERDS = 512 };

struct limits {
    uint32_t bytes, herds;
};

static struct limits limits_of(uint8_t letter) {
    if (letter == 'c') return (struct limits){COOPERATIVE_BYTES, COOPERATIVE_HERDS};
    return (struct limits){INPUT_BYTES, INPUT_HERDS};
}

// ---- the farm

enum kind { ROUGHAGE, CATTLE, PIGS, DAIRY };

// The slots of each kind, in the order of 01's list; dairy cows have those of cattle. LEFT is what the free factor
// leaves, in percent: 100 less it.
enum { R_CATEGORY, R_ANIMALS, R_EXCRETION, R_TAN, R_LEFT, R_DAYS, R_HOURS };
enum { C_ANIMALS, C_EXCRETION, C_TAN, C_YARD_DAYS, C_YARD, C_FLOOR, C_LEFT, C_DAYS, C_HOURS };
enum { P_ANIMALS, P_EXCRETION, P_TAN, P_HOUSING, P_SCRUBBER, P_FLOOR, P_AIR, P_LEFT };

static const uint16_t all_given[] = {0x7f, 0x1ff, 0xff, 0x1ff};

static const uint32_t STANDARD = UINT32_MAX;

struct herd {
    uint64_t label[2]; // the bytes of the label, zeros behind them
    uint32_t label_length;
    uint16_t kind;
    uint16_t given; // a bit for each slot
    uint32_t values[SLOTS];
    uint32_t first_record;
};

struct farm {
    uint32_t count;
    struct herd herds[COOPERATIVE_HERDS];
};

struct refusal {
    uint32_t number; // 0: accepted
    uint32_t record;
};

// ---- the list of inputs

enum form { NUMBER, FREE, OR_STANDARD, NO_STANDARD, CATEGORY, YARD, FLOOR, HOUSING, SCRUBBER, HOUSING_FLOOR, HOUSING_AIR };

struct input {
    uint8_t kind, slot, form, decimals;
    uint32_t most;
};

static const struct input inputs[] = {
    {ROUGHAGE, R_CATEGORY, CATEGORY, 0, 0},
    {ROUGHAGE, R_ANIMALS, NUMBER, 0, 10000},
    {ROUGHAGE, R_EXCRETION, OR_STANDARD, 3, 200000},
    {ROUGHAGE, R_TAN, OR_STANDARD, 2, 10000},
    {ROUGHAGE, R_LEFT, FREE, 0, 100},
    {ROUGHAGE, R_DAYS, NUMBER, 0, 365},
    {ROUGHAGE, R_HOURS, NUMBER, 1, 240},
    {CATTLE, C_ANIMALS, NUMBER, 0, 10000},
    {CATTLE, C_EXCRETION, NO_STANDARD, 3, 200000},
    {CATTLE, C_TAN, NO_STANDARD, 2, 10000},
    {CATTLE, C_YARD_DAYS, NUMBER, 0, 365},
    {CATTLE, C_YARD, YARD, 0, 0},
    {CATTLE, C_FLOOR, FLOOR, 0, 0},
    {CATTLE, C_LEFT, FREE, 0, 100},
    {CATTLE, C_DAYS, NUMBER, 0, 365},
    {CATTLE, C_HOURS, NUMBER, 1, 240},
    {PIGS, P_ANIMALS, NUMBER, 0, 10000},
    {PIGS, P_EXCRETION, NO_STANDARD, 3, 200000},
    {PIGS, P_TAN, NO_STANDARD, 2, 10000},
    {PIGS, P_HOUSING, HOUSING, 0, 0},
    {PIGS, P_SCRUBBER, SCRUBBER, 0, 0},
    {PIGS, P_FLOOR, HOUSING_FLOOR, 0, 0},
    {PIGS, P_AIR, HOUSING_AIR, 0, 0},
    {PIGS, P_LEFT, FREE, 0, 100},
    {DAIRY, C_ANIMALS, NUMBER, 0, 10000},
    {DAIRY, C_EXCRETION, NO_STANDARD, 3, 200000},
    {DAIRY, C_TAN, OR_STANDARD, 2, 10000},
    {DAIRY, C_YARD_DAYS, NUMBER, 0, 365},
    {DAIRY, C_YARD, YARD, 0, 0},
    {DAIRY, C_FLOOR, FLOOR, 0, 0},
    {DAIRY, C_LEFT, FREE, 0, 100},
    {DAIRY, C_DAYS, NUMBER, 0, 365},
    {DAIRY, C_HOURS, NUMBER, 1, 240},
};

enum { AT_ROUGHAGE = 0, AT_CATTLE = 7, AT_PIGS = 16, AT_DAIRY = 24 };

struct text {
    const uint8_t *at;
    size_t length;
};

// Is the text this literal? Its length is known already.
#define IS(t, literal) (memcmp((t).at, literal, sizeof literal - 1) == 0)

static int excretion_input(struct text name) {
    switch (name.length) {
    case 7: return IS(name, "animals") ? C_ANIMALS : -1;
    case 15: return IS(name, "inp_n_excretion") ? C_EXCRETION : -1;
    case 12: return IS(name, "tan_fraction") ? C_TAN : -1;
    default: return -1;
    }
}

static int days_input(struct text name) {
    switch (name.length) {
    case 12: return IS(name, "grazing_days") ? 0 : -1;
    case 13: return IS(name, "grazing_hours") ? 1 : -1;
    default: return -1;
    }
}

static int outdoor_input(struct text name) {
    switch (name.length) {
    case 9: return IS(name, "yard_days") ? C_YARD_DAYS : -1;
    case 12: return IS(name, "grazing_days") ? C_DAYS : -1;
    case 13:
        if (IS(name, "exercise_yard")) return C_YARD;
        return IS(name, "grazing_hours") ? C_HOURS : -1;
    case 22: return IS(name, "free_correction_factor") ? C_LEFT : -1;
    case 30: return IS(name, "floor_properties_exercise_yard") ? C_FLOOR : -1;
    default: return -1;
    }
}

static int offset(int found, int by) { return found < 0 ? -1 : found + by; }

// The place of an input in the list, or -1.
static int find_input(struct text path, struct text name) {
    switch (path.length) {
    case 39:
        if (IS(path, "Livestock::RoughageConsuming::Excretion")) {
            if (name.length == 14) return IS(name, "animalcategory") ? AT_ROUGHAGE + R_CATEGORY : -1;
            return offset(excretion_input(name), AT_ROUGHAGE + R_ANIMALS);
        }
        if (name.length == 12 && IS(path, "Livestock::FatteningPigs::Housing::Type") && IS(name, "housing_type")) return AT_PIGS + P_HOUSING;
        return -1;
    case 50:
        if (name.length == 22 && IS(path, "Livestock::RoughageConsuming::Housing::CFreeFactor") && IS(name, "free_correction_factor"))
            return AT_ROUGHAGE + R_LEFT;
        return -1;
    case 46:
        if (name.length == 12 && IS(path, "Livestock::FatteningPigs::Housing::AirScrubber"))
            return IS(name, "air_scrubber") ? AT_PIGS + P_SCRUBBER : -1;
        if (name.length == 22 && IS(path, "Livestock::FatteningPigs::Housing::CFreeFactor"))
            return IS(name, "free_correction_factor") ? AT_PIGS + P_LEFT : -1;
        return -1;
    case 52:
        if (!IS(path, "Livestock::FatteningPigs::Housing::MitigationOptions")) return -1;
        if (name.length == 24) return IS(name, "mitigation_housing_floor") ? AT_PIGS + P_FLOOR : -1;
        if (name.length == 22) return IS(name, "mitigation_housing_air") ? AT_PIGS + P_AIR : -1;
        return -1;
    case 37: return IS(path, "Livestock::RoughageConsuming::Grazing") ? offset(days_input(name), AT_ROUGHAGE + R_DAYS) : -1;
    case 33: return IS(path, "Livestock::OtherCattle::Excretion") ? offset(excretion_input(name), AT_CATTLE) : -1;
    case 31: return IS(path, "Livestock::OtherCattle::Outdoor") ? offset(outdoor_input(name), AT_CATTLE) : -1;
    case 35: return IS(path, "Livestock::FatteningPigs::Excretion") ? offset(excretion_input(name), AT_PIGS) : -1;
    case 30: return IS(path, "Livestock::DairyCow::Excretion") ? offset(excretion_input(name), AT_DAIRY) : -1;
    case 28: return IS(path, "Livestock::DairyCow::Outdoor") ? offset(outdoor_input(name), AT_DAIRY) : -1;
    default: return -1;
    }
}

// ---- values

static int find_category(struct text t) {
    switch (t.length) {
    case 11: return IS(t, "fallow_deer") ? 0 : -1;
    case 8: return IS(t, "red_deer") ? 1 : -1;
    case 6: return IS(t, "wapiti") ? 2 : -1;
    case 20: return IS(t, "bison_older_than_3yr") ? 3 : -1;
    case 22: return IS(t, "bison_younger_than_3yr") ? 4 : -1;
    case 19: return IS(t, "lama_older_than_2yr") ? 5 : -1;
    case 21:
        if (IS(t, "lama_younger_than_2yr")) return 6;
        return IS(t, "alpaca_older_than_2yr") ? 7 : -1;
    case 23: return IS(t, "alpaca_younger_than_2yr") ? 8 : -1;
    case 15: return IS(t, "rabbit_doe_kits") ? 9 : -1;
    case 12: return IS(t, "rabbit_young") ? 10 : -1;
    default: return -1;
    }
}

static int find_yard(struct text t) {
    switch (t.length) {
    case 13: return IS(t, "not_available") ? 0 : -1;
    case 55: return IS(t, "available_roughage_is_not_supplied_in_the_exercise_yard") ? 1 : -1;
    case 58: return IS(t, "available_roughage_is_partly_supplied_in_the_exercise_yard") ? 2 : -1;
    case 63: return IS(t, "available_roughage_is_exclusively_supplied_in_the_exercise_yard") ? 3 : -1;
    default: return -1;
    }
}

static int find_floor(struct text t) {
    switch (t.length) {
    case 11: return IS(t, "solid_floor") ? 0 : -1;
    case 13: return IS(t, "unpaved_floor") ? 1 : -1;
    case 16: return IS(t, "perforated_floor") ? 2 : -1;
    case 40: return IS(t, "paddock_or_pasture_used_as_exercise_yard") ? 3 : -1;
    default: return -1;
    }
}

enum { OUTDOOR_PIGS = 4 };

static int find_housing(struct text t) {
    switch (t.length) {
    case 19: return IS(t, "Slurry_Conventional") ? 0 : -1;
    case 12: return IS(t, "Slurry_Label") ? 1 : -1;
    case 17: return IS(t, "Slurry_Label_Open") ? 2 : -1;
    case 11: return IS(t, "Deep_Litter") ? 3 : -1;
    case 7: return IS(t, "Outdoor") ? OUTDOOR_PIGS : -1;
    default: return -1;
    }
}

enum { NO_SCRUBBER, ACID, BIOTRICKLING };

static int find_scrubber(struct text t) {
    if (t.length == 12) return IS(t, "biotrickling") ? BIOTRICKLING : -1;
    if (t.length != 4) return -1;
    if (IS(t, "none")) return NO_SCRUBBER;
    return IS(t, "acid") ? ACID : -1;
}

static int find_housing_floor(struct text t) { return t.length == 4 && IS(t, "none") ? 0 : -1; }

static int find_housing_air(struct text t) {
    switch (t.length) {
    case 4: return IS(t, "none") ? 0 : -1;
    case 21: return IS(t, "low_impuls_air_supply") ? 1 : -1;
    default: return -1;
    }
}

static int is_standard(struct text t) {
    if (t.length != 8) return 0;
    for (size_t i = 0; i < 8; i++) {
        if ((t.at[i] | 32) != (uint8_t)"standard"[i]) return 0;
    }
    return 1;
}

// A number in units of its last decimal, or -1.
static int64_t find_number(struct text t, uint32_t decimals, uint32_t most) {
    const uint8_t *p = t.at, *end = t.at + t.length;
    if (p == end || *p < '0' || *p > '9') return -1;
    uint64_t n = *p++ - '0';
    if (n == 0) {
        if (p != end && *p != '.') return -1;
    } else {
        while (p != end && *p >= '0' && *p <= '9') {
            n = n * 10 + (*p++ - '0');
            if (n > most) return -1;
        }
    }
    if (p != end) {
        if (*p++ != '.' || p == end || (size_t)(end - p) > decimals) return -1;
        do {
            if (*p < '0' || *p > '9') return -1;
            n = n * 10 + (*p++ - '0');
            decimals--;
        } while (p != end);
    }
    while (decimals-- > 0) n *= 10;
    return n <= most ? (int64_t)n : -1;
}

// What a free factor leaves, in percent, or -1. It alone may be below zero.
static int64_t find_left(struct text t, uint32_t most) {
    if (t.length == 0 || t.at[0] != '-') {
        int64_t taken = find_number(t, 0, most);
        return taken < 0 ? -1 : 100 - taken;
    }
    int64_t added = find_number((struct text){t.at + 1, t.length - 1}, 0, most);
    return added <= 0 ? -1 : 100 + added;
}

// The value of an input, or the number of the refusal, 6 or 7.
static uint32_t read_value(const struct input *input, struct text t, uint32_t *value) {
    int64_t found;
    switch (input->form) {
    case OR_STANDARD:
        if (is_standard(t)) {
            *value = STANDARD;
            return 0;
        }
        break;
    case NO_STANDARD:
        if (is_standard(t)) return 6;
        break;
    default: break;
    }
    switch (input->form) {
    case CATEGORY: found = find_category(t); break;
    case YARD: found = find_yard(t); break;
    case FLOOR: found = find_floor(t); break;
    case HOUSING: found = find_housing(t); break;
    case SCRUBBER: found = find_scrubber(t); break;
    case HOUSING_FLOOR: found = find_housing_floor(t); break;
    case HOUSING_AIR: found = find_housing_air(t); break;
    case FREE: found = find_left(t, input->most); break;
    default: found = find_number(t, input->decimals, input->most);
    }
    if (found < 0) return 7;
    *value = (uint32_t)found;
    return 0;
}

// ---- the file

// The bytes that end a stretch of an unquoted field.
static const uint8_t ends_plain[256] = {[','] = 1, ['\r'] = 1, ['\n'] = 1, ['"'] = 1};

// Reads the record at p; answers where the next one starts, or a null pointer where it breaks RFC 4180.
static const uint8_t *read_record(const uint8_t *p, const uint8_t *end, struct text fields[4], size_t *count) {
    size_t n = 0;
    for (;;) {
        const uint8_t *from = p, *to;
        if (p != end && *p == '"') {
            from = ++p;
            for (;;) {
                p = memchr(p, '"', (size_t)(end - p));
                if (!p) return NULL;
                to = p++;
                if (p == end || *p != '"') break;
                p++;
            }
            if (p != end && *p != ',' && *p != '\r') return NULL;
        } else {
            while (p != end && !ends_plain[*p]) p++;
            to = p;
        }
        if (n < 4) fields[n] = (struct text){from, (size_t)(to - from)};
        n++;
        if (p == end) break;
        if (*p == ',') {
            p++;
            continue;
        }
        if (*p != '\r' || ++p == end || *p != '\n') return NULL;
        p++;
        break;
    }
    *count = n;
    return p;
}

static int is_good_label(struct text t) {
    if (t.length < 1 || t.length > LABEL_MOST) return 0;
    for (size_t i = 0; i < t.length; i++) {
        uint8_t b = t.at[i];
        if (b < 32 || b > 126 || b == '"') return 0;
    }
    return 1;
}

static int has_label(const struct herd *herd, const uint64_t label[2], size_t length) {
    return herd->label[0] == label[0] && herd->label[1] == label[1] && herd->label_length == length;
}

// The labels of a farm's herds, found by their bytes, among twice as many places as herds: a label has the first free
// one from where its bytes put it, and there stands one more than the herd's number; 0 is free.
enum { PLACE_BITS = 10, PLACES = 1 << PLACE_BITS };

static uint32_t place_of(const uint64_t label[2]) {
    return (uint32_t)((label[0] * 0x9E3779B97F4A7C15u + label[1] * 0xC2B2AE3D27D4EB4Fu) >> (64 - PLACE_BITS));
}

static struct refusal refused(uint32_t number, uint32_t record) { return (struct refusal){number, record}; }

static struct refusal accepted(void) { return refused(0, 0); }

static __attribute__((noinline)) struct refusal read_farm(const uint8_t *file, size_t length, struct limits limits,
                                                           struct farm *farm) {
    farm->count = 0;
    if (length > limits.bytes) return refused(1, 0);
    const uint8_t *p = file, *end = file + length;
    struct herd *herd = NULL;
    uint16_t places[PLACES] = {0};
    for (uint32_t record = 1; p != end; record++) {
        struct text fields[4];
        size_t count;
        p = read_record(p, end, fields, &count);
        if (!p) return refused(2, record);
        if (count != 4) return refused(3, record);
        if (!is_good_label(fields[0])) return refused(4, record);
        int place = find_input(fields[1], fields[2]);
        if (place < 0) return refused(5, record);
        const struct input *input = &inputs[place];
        uint32_t value;
        uint32_t number = read_value(input, fields[3], &value);
        if (number) return refused(number, record);
        uint64_t label[2] = {0, 0};
        memcpy(label, fields[0].at, fields[0].length);
        if (!herd || !has_label(herd, label, fields[0].length)) {
            uint32_t place = place_of(label);
            while (places[place]) {
                if (has_label(&farm->herds[places[place] - 1], label, fields[0].length)) return refused(8, record);
                place = (place + 1) % PLACES;
            }
            if (farm->count == limits.herds) return refused(9, record);
            herd = &farm->herds[farm->count++];
            places[place] = (uint16_t)farm->count;
            herd->label[0] = label[0];
            herd->label[1] = label[1];
            herd->label_length = (uint32_t)fields[0].length;
            herd->kind = input->kind;
            herd->given = 0;
            herd->first_record = record;
        }
        if (herd->kind != input->kind) return refused(10, record);
        uint16_t bit = (uint16_t)(1u << input->slot);
        if (herd->given & bit) return refused(11, record);
        herd->given |= bit;
        herd->values[input->slot] = value;
    }
    for (uint32_t i = 0; i < farm->count; i++) {
        const struct herd *h = &farm->herds[i];
        if (h->given != all_given[h->kind]) return refused(12, h->first_record);
    }
    return accepted();
}

// ---- figures, in grams

struct figures {
    int64_t n, tan;
    int64_t n_yard, tan_yard, nh3_yard;
    int64_t n_pasture, tan_pasture, nh3_pasture, n2_pasture, no_pasture, n2o_pasture, n_remain, tan_remain;
    int64_t n_housing, tan_housing, nh3_housing;
};

static const uint32_t standards[] = {20000, 40000, 80000, 60000, 20000, 17000, 11000, 11000, 7000, 2600, 790};

// exp(0.0403 x hours) in billionths, by the series' terms 0 to 20, for each tenth of an hour (2.87).
static const uint32_t k[241] = {
    1000000000, 1004038131, 1008092569, 1012163379, 1016250628, 1020354382, 1024474707, 1028611670, 1032765339, 1036935781, 1041123064, 1045327256,
    1049548425, 1053786639, 1058041968, 1062314481, 1066604246, 1070911334, 1075235815, 1079577758, 1083937235, 1088314316, 1092709072, 1097121575,
    1101551896, 1106000107, 1110466281, 1114950490, 1119452806, 1123973304, 1128512056, 1133069135, 1137644617, 1142238576, 1146851085, 1151482221,
    1156132057, 1160800670, 1165488136, 1170194530, 1174919929, 1179664410, 1184428050, 1189210926, 1194013116, 1198834698, 1203675750, 1208536351,
    1213416579, 1218316515, 1223236237, 1228175826, 1233135361, 1238114924, 1243114594, 1248134454, 1253174585, 1258235069, 1263315987, 1268417423,
    1273539459, 1278682179, 1283845666, 1289030003, 1294235276, 1299461568, 1304708964, 1309977550, 1315267412, 1320578634, 1325911304, 1331265509,
    1336641334, 1342038867, 1347458196, 1352899409, 1358362595, 1363847841, 1369355238, 1374884875, 1380436840, 1386011226, 1391608121, 1397227617,
    1402869806, 1408534779, 1414222627, 1419933444, 1425667322, 1431424354, 1437204633, 1443008254, 1448835311, 1454685899, 1460560111, 1466458045,
    1472379795, 1478325458, 1484295131, 1490288909, 1496306892, 1502349175, 1508415859, 1514507040, 1520622819, 1526763293, 1532928564, 1539118731,
    1545333895, 1551574156, 1557839616, 1564130377, 1570446541, 1576788211, 1583155488, 1589548478, 1595967284, 1602412009, 1608882760, 1615379640,
    1621902755, 1628452211, 1635028115, 1641630573, 1648259693, 1654915583, 1661598349, 1668308101, 1675044949, 1681809000, 1688600366, 1695419156,
    1702265481, 1709139453, 1716041183, 1722970782, 1729928365, 1736914043, 1743927930, 1750970140, 1758040787, 1765139987, 1772267854, 1779424505,
    1786610055, 1793824621, 1801068320, 1808341271, 1815643590, 1822975398, 1830336812, 1837727952, 1845148939, 1852599893, 1860080935, 1867592186,
    1875133768, 1882705805, 1890308418, 1897941732, 1905605870, 1913300957, 1921027117, 1928784477, 1936573162, 1944393299, 1952245015, 1960128437,
    1968043693, 1975990912, 1983970223, 1991981755, 2000025639, 2008102005, 2016210985, 2024352710, 2032527312, 2040734924, 2048975680, 2057249713,
    2065557158, 2073898149, 2082272822, 2090681313, 2099123759, 2107600296, 2116111063, 2124656198, 2133235839, 2141850125, 2150499197, 2159183196,
    2167902261, 2176656535, 2185446160, 2194271279, 2203132035, 2212028571, 2220961033, 2229929566, 2238934314, 2247975425, 2257053045, 2266167322,
    2275318403, 2284506438, 2293731575, 2302993964, 2312293756, 2321631102, 2331006154, 2340419063, 2349869982, 2359359066, 2368886468, 2378452343,
    2388056846, 2397700133, 2407382361, 2417103687, 2426864270, 2436664266, 2446503837, 2456383141, 2466302338, 2476261591, 2486261061, 2496300910,
    2506381301, 2516502398, 2526664365, 2536867368, 2547111571, 2557397142, 2567724248, 2578093056, 2588503734, 2598956452, 2609451380, 2619988687,
    2630568546,
};

// Rates in ten-thousandths. There is no N2 from pasture.
static void pasture(struct figures *f, uint64_t nh3_rate, uint64_t n2o_rate) {
    f->nh3_pasture = (int64_t)((uint64_t)f->tan_pasture * nh3_rate / 10000);
    f->n2_pasture = 0;
    f->no_pasture = (int64_t)((uint64_t)f->n_pasture * 55 / 10000);
    f->n2o_pasture = (int64_t)((uint64_t)f->n_pasture * n2o_rate / 10000);
    int64_t lost = f->nh3_pasture + f->no_pasture + f->n2o_pasture;
    f->n_remain = f->n_pasture - lost;
    f->tan_remain = f->tan_pasture - lost;
}

// The roughage housing's emission rate in billionths (2.85, 2.87), before its ceiling and under it.
static uint64_t housing_rate_before(uint64_t days, uint64_t hours, uint64_t left) {
    const uint64_t one = 1000000000;
    uint64_t c = one;
    if (days * hours < 87600) c = ((365 - days) * 240 * one + days * (240 - hours) * k[hours]) / (87600 - days * hours);
    return c * 275 / 1000 * left / 100;
}

static uint64_t at_most(uint64_t most, uint64_t n) { return n < most ? n : most; }

static uint64_t housing_rate(uint64_t days, uint64_t hours, uint64_t left) {
    return at_most(1000000000, housing_rate_before(days, hours, left));
}

static void roughage(const uint32_t *v, struct figures *f) {
    uint64_t a_head = v[R_EXCRETION] == STANDARD ? standards[v[R_CATEGORY]] : v[R_EXCRETION];
    uint64_t fraction = v[R_TAN] == STANDARD ? 4000 : v[R_TAN];
    uint64_t n = v[R_ANIMALS] * a_head, tan = n * fraction / 10000;
    uint64_t out = (uint64_t)v[R_DAYS] * v[R_HOURS];
    f->n = (int64_t)n;
    f->tan = (int64_t)tan;
    f->n_yard = f->tan_yard = f->nh3_yard = 0;
    f->n_pasture = (int64_t)(n * out / 87600);
    f->tan_pasture = (int64_t)(tan * out / 87600);
    pasture(f, 1250, 100);
    f->n_housing = f->n - f->n_pasture;
    f->tan_housing = f->tan - f->tan_pasture;
    f->nh3_housing = (int64_t)((uint64_t)f->tan_housing * housing_rate(v[R_DAYS], v[R_HOURS], v[R_LEFT]) / 1000000000);
}

static const uint8_t yard_tenths[] = {0, 1, 2, 6};
static const uint8_t floor_hundredths[] = {100, 50, 25, 10};

// The yard's factor in hundred-thousandths, at most 1.
static uint64_t yard_factor(const uint32_t *v) {
    return at_most(100000, 7ull * floor_hundredths[v[C_FLOOR]] * v[C_LEFT]);
}

// TAN's share in ten-thousandths. Dairy cows alone have a standard here (2.2).
static uint64_t tan_with_yard(const uint32_t *v) { return v[C_TAN] == STANDARD ? 5500 : v[C_TAN]; }

// Cattle and dairy cows: their rules are the same (2.18 to 2.20, 2.33 to 2.35).
static void with_yard(const uint32_t *v, struct figures *f) {
    uint64_t n = (uint64_t)v[C_ANIMALS] * v[C_EXCRETION], tan = n * tan_with_yard(v) / 10000;
    uint64_t days = v[C_DAYS], yard_days = v[C_YARD_DAYS];
    uint64_t both = days + yard_days > 365 ? days + yard_days - 365 : 0;
    uint64_t share = yard_tenths[v[C_YARD]], share_on_both = share > 2 ? 2 : share;
    uint64_t yard = share * (yard_days - both) + share_on_both * both;
    uint64_t out = v[C_HOURS] * (10 * (days - both) + (10 - share_on_both) * both);
    f->n = (int64_t)n;
    f->tan = (int64_t)tan;
    f->n_yard = (int64_t)(n * yard / 3650);
    f->tan_yard = (int64_t)(tan * yard / 3650);
    f->nh3_yard = (int64_t)((uint64_t)f->tan_yard * yard_factor(v) / 100000);
    f->n_pasture = (int64_t)(n * out / 876000);
    f->tan_pasture = (int64_t)(tan * out / 876000);
    pasture(f, 830, 200);
    f->n_housing = f->n - f->n_yard - f->n_pasture;
    f->tan_housing = f->tan - f->tan_yard - f->tan_pasture;
    f->nh3_housing = 0;
}

// A pig house (2.52 to 2.57, 2.62): its rate in thousandths, its indoor part in tenths, is all of it solid, and its
// gases in ten-thousandths.
struct house {
    uint32_t rate, indoor_tenths, solid, n2, no, n2o;
};

static const struct house houses[] = {
    {243, 10, 0, 200, 20, 20},
    {486, 5, 0, 200, 20, 20},
    {340, 5, 0, 200, 20, 20},
    {486, 10, 1, 500, 100, 100},
    {0, 10, 1, 0, 0, 0},
};
static const uint8_t scrubber_tenths[] = {0, 9, 7};
static const uint8_t air_tenths[] = {0, 2};

// The factors of 2.51 in billionths. None gets to 1: the highest rate is 0.486, and a free factor doubles it at most.
struct pig_factors {
    uint64_t before, indoor, grazing, whole;
};

static struct pig_factors pig_factors(const uint32_t *v) {
    const struct house *house = &houses[v[P_HOUSING]];
    struct pig_factors e;
    e.grazing = house->rate * 1000000ull * v[P_LEFT] / 100;
    e.before = e.grazing * (10 - air_tenths[v[P_AIR]]) / 10;
    e.indoor = e.before * (10 - scrubber_tenths[v[P_SCRUBBER]]) / 10;
    e.whole = house->indoor_tenths * e.indoor / 10 + (10 - house->indoor_tenths) * e.grazing / 10;
    return e;
}

// The factor in billionths by which a biotrickling filter takes of the TAN; what an acid scrubber takes goes out with
// the manure.
static uint64_t scrubbed_factor(const uint32_t *v) {
    if (v[P_SCRUBBER] != BIOTRICKLING) return 0;
    return houses[v[P_HOUSING]].indoor_tenths * scrubber_tenths[BIOTRICKLING] * 10000000ull;
}

static void pigs(const uint32_t *v, struct figures *f) {
    uint64_t n = (uint64_t)v[P_ANIMALS] * v[P_EXCRETION], tan = n * v[P_TAN] / 10000;
    int outdoor = v[P_HOUSING] == OUTDOOR_PIGS;
    f->n = (int64_t)n;
    f->tan = (int64_t)tan;
    f->n_yard = f->tan_yard = f->nh3_yard = 0;
    f->n_pasture = outdoor ? f->n : 0;
    f->tan_pasture = outdoor ? f->tan : 0;
    pasture(f, 2000, 200);
    f->n_housing = f->n - f->n_pasture;
    f->tan_housing = f->tan - f->tan_pasture;
    f->nh3_housing = (int64_t)((uint64_t)f->tan_housing * pig_factors(v).whole / 1000000000);
}

static void figures_of(const struct herd *herd, struct figures *f) {
    switch (herd->kind) {
    case ROUGHAGE: roughage(herd->values, f); break;
    case PIGS: pigs(herd->values, f); break;
    default: with_yard(herd->values, f);
    }
}

// ---- the listing

static const char pairs[] = "00010203040506070809101112131415161718192021222324252627282930313233343536373839404142434445464748495051525354555657585960616263646566"
                            "676869707172737475767778798081828384858687888990919293949596979899";

static uint8_t *put_whole(uint8_t *out, uint64_t n) {
    uint8_t digits[20], *p = digits + sizeof digits;
    while (n >= 100) {
        p -= 2;
        memcpy(p, pairs + n % 100 * 2, 2);
        n /= 100;
    }
    if (n >= 10) {
        p -= 2;
        memcpy(p, pairs + n * 2, 2);
    } else {
        *--p = (uint8_t)('0' + n);
    }
    size_t length = (size_t)(digits + sizeof digits - p);
    memcpy(out, p, length);
    return out + length;
}

// Kilograms with three decimals, and the record's end.
static uint8_t *put_grams(uint8_t *out, int64_t grams) {
    uint64_t g = (uint64_t)grams;
    if (grams < 0) {
        *out++ = '-';
        g = -g;
    }
    uint64_t rest = g % 1000;
    out = put_whole(out, g / 1000);
    out[0] = '.';
    out[1] = (uint8_t)('0' + rest / 100);
    memcpy(out + 2, pairs + rest % 100 * 2, 2);
    out[4] = '\r';
    out[5] = '\n';
    return out + 6;
}

// Room for a label of 16 bytes in quotes.
enum { LABEL_ROOM = 24 };

// A line: the label as it is printed, the module and the name between commas, the amount. More bytes than the label has are copied, in few
// moves, and the rest written over.
#define LINE(literal, grams)                              \
    do {                                                  \
        memcpy(out, label, LABEL_ROOM);                   \
        out += length;                                    \
        memcpy(out, literal, sizeof literal - 1);         \
        out = put_grams(out + sizeof literal - 1, grams); \
    } while (0)

static size_t printed_label(const struct herd *herd, uint8_t label[LABEL_ROOM]) {
    size_t length = herd->label_length;
    memset(label, 0, LABEL_ROOM);
    if (!memchr(herd->label, ',', length)) {
        memcpy(label, herd->label, LABEL_MOST);
        return length;
    }
    label[0] = '"';
    memcpy(label + 1, herd->label, LABEL_MOST);
    label[length + 1] = '"';
    return length + 2;
}

#define GRAZING(module)                                          \
    do {                                                         \
        LINE("," module ",n_into_grazing,", f->n_pasture);       \
        LINE("," module ",tan_into_grazing,", f->tan_pasture);   \
        LINE("," module ",nh3_ngrazing,", f->nh3_pasture);       \
        LINE("," module ",n2_ngrazing,", f->n2_pasture);         \
        LINE("," module ",no_ngrazing,", f->no_pasture);         \
        LINE("," module ",n2o_ngrazing,", f->n2o_pasture);       \
        LINE("," module ",n_remain_grazing,", f->n_remain);      \
        LINE("," module ",tan_remain_grazing,", f->tan_remain);  \
    } while (0)

static uint8_t *list_roughage(uint8_t *out, const uint8_t *label, size_t length, const struct figures *f) {
    LINE(",Livestock::RoughageConsuming::Excretion,n_excretion,", f->n);
    LINE(",Livestock::RoughageConsuming::Excretion,tan_excretion,", f->tan);
    GRAZING("Livestock::RoughageConsuming::Grazing");
    LINE(",Livestock::RoughageConsuming::Housing,n_into_housing,", f->n_housing);
    LINE(",Livestock::RoughageConsuming::Housing,tan_into_housing,", f->tan_housing);
    LINE(",Livestock::RoughageConsuming::Housing,nh3_nhousing,", f->nh3_housing);
    LINE(",Livestock::RoughageConsuming::Housing,n_outhousing,", f->n_housing - f->nh3_housing);
    LINE(",Livestock::RoughageConsuming::Housing,tan_outhousing,", f->tan_housing - f->nh3_housing);
    return out;
}

#define WITH_YARD(kind)                                                          \
    do {                                                                         \
        LINE("," kind "::Excretion,n_excretion,", f->n);                         \
        LINE("," kind "::Excretion,tan_excretion,", f->tan);                     \
        LINE("," kind "::Yard,n_into_yard,", f->n_yard);                         \
        LINE("," kind "::Yard,tan_into_yard,", f->tan_yard);                     \
        LINE("," kind "::Yard,nh3_nyard,", f->nh3_yard);                         \
        LINE("," kind "::Yard,n_outyard_liquid,", f->n_yard - f->nh3_yard);      \
        LINE("," kind "::Yard,tan_outyard_liquid,", f->tan_yard - f->nh3_yard);  \
        GRAZING(kind "::Grazing");                                               \
        LINE("," kind "::Housing,n_into_housing,", f->n_housing);                \
        LINE("," kind "::Housing,tan_into_housing,", f->tan_housing);            \
    } while (0)

static uint8_t *list_cattle(uint8_t *out, const uint8_t *label, size_t length, const struct figures *f) {
    WITH_YARD("Livestock::OtherCattle");
    return out;
}

static uint8_t *list_dairy(uint8_t *out, const uint8_t *label, size_t length, const struct figures *f) {
    WITH_YARD("Livestock::DairyCow");
    return out;
}

// What a biotrickling filter takes: of the TAN excreted first, then by the factor before the scrubber.
static int64_t scrubbed_tan(const uint32_t *v, const struct figures *f) {
    uint64_t reached = (uint64_t)f->tan * scrubbed_factor(v) / 1000000000;
    return (int64_t)(reached * pig_factors(v).before / 1000000000);
}

static uint8_t *list_pigs(uint8_t *out, const uint8_t *label, size_t length, const uint32_t *v,
                          const struct figures *f) {
    const struct house *house = &houses[v[P_HOUSING]];
    int64_t scrubbed = scrubbed_tan(v, f);
    int64_t n = f->n_housing - f->nh3_housing - scrubbed, tan = f->tan_housing - f->nh3_housing - scrubbed;
    int64_t solid = house->solid ? -1 : 0, liquid = ~solid; // all bits or none
    int64_t n2 = f->n_housing * house->n2 / 10000, no = f->n_housing * house->no / 10000;
    int64_t n2o = f->n_housing * house->n2o / 10000;
    LINE(",Livestock::FatteningPigs::Excretion,n_excretion,", f->n);
    LINE(",Livestock::FatteningPigs::Excretion,tan_excretion,", f->tan);
    GRAZING("Livestock::FatteningPigs::Grazing");
    LINE(",Livestock::FatteningPigs::Housing,n_into_housing,", f->n_housing);
    LINE(",Livestock::FatteningPigs::Housing,tan_into_housing,", f->tan_housing);
    LINE(",Livestock::FatteningPigs::Housing,nh3_nhousing,", f->nh3_housing);
    LINE(",Livestock::FatteningPigs::Housing,n_outhousing_liquid,", n & liquid);
    LINE(",Livestock::FatteningPigs::Housing,tan_outhousing_liquid,", tan & liquid);
    LINE(",Livestock::FatteningPigs::Housing,n_outhousing_solid,", n & solid);
    LINE(",Livestock::FatteningPigs::Housing,tan_outhousing_solid,", tan & solid);
    LINE(",Livestock::FatteningPigs::NxOx,n2_nsolid,", n2 & solid);
    LINE(",Livestock::FatteningPigs::NxOx,no_nsolid,", no & solid);
    LINE(",Livestock::FatteningPigs::NxOx,n2o_nsolid,", n2o & solid);
    LINE(",Livestock::FatteningPigs::NxOx,n2_nliquid,", n2 & liquid);
    LINE(",Livestock::FatteningPigs::NxOx,no_nliquid,", no & liquid);
    LINE(",Livestock::FatteningPigs::NxOx,n2o_nliquid,", n2o & liquid);
    return out;
}

static __attribute__((noinline)) uint8_t *list_herd(uint8_t *out, const struct herd *herd) {
    struct figures f;
    uint8_t label[LABEL_ROOM];
    size_t length = printed_label(herd, label);
    figures_of(herd, &f);
    switch (herd->kind) {
    case ROUGHAGE: return list_roughage(out, label, length, &f);
    case CATTLE: return list_cattle(out, label, length, &f);
    case PIGS: return list_pigs(out, label, length, herd->values, &f);
    default: return list_dairy(out, label, length, &f);
    }
}

static void add(struct figures *sum, const struct figures *f) {
    int64_t *to = (int64_t *)sum;
    const int64_t *from = (const int64_t *)f;
    for (size_t i = 0; i < sizeof *f / sizeof *from; i++) to[i] += from[i];
}

static __attribute__((noinline)) uint8_t *list_totals(uint8_t *out, const struct farm *farm) {
    struct figures sum = {0}, f;
    for (uint32_t i = 0; i < farm->count; i++) {
        figures_of(&farm->herds[i], &f);
        add(&sum, &f);
    }
    static const uint8_t label[LABEL_ROOM];
    const size_t length = 0;
    LINE(",Livestock,n_excretion,", sum.n);
    LINE(",Livestock,tan_excretion,", sum.tan);
    LINE(",Livestock,n_into_housing,", sum.n_housing);
    LINE(",Livestock,tan_into_housing,", sum.tan_housing);
    LINE(",Livestock,n_into_yard,", sum.n_yard);
    LINE(",Livestock,tan_into_yard,", sum.tan_yard);
    LINE(",Livestock,n_into_grazing,", sum.n_pasture);
    LINE(",Livestock,tan_into_grazing,", sum.tan_pasture);
    LINE(",Livestock,nh3_nhousing,", sum.nh3_housing);
    LINE(",Livestock,nh3_nyard,", sum.nh3_yard);
    LINE(",Livestock,nh3_ngrazing,", sum.nh3_pasture);
    LINE(",Livestock,nh3_nhousing_and_yard,", sum.nh3_housing + sum.nh3_yard);
    LINE(",Livestock,nh3_nlivestock,", sum.nh3_housing + sum.nh3_yard + sum.nh3_pasture);
    LINE(",Livestock,n2_ngrazing,", sum.n2_pasture);
    LINE(",Livestock,no_ngrazing,", sum.no_pasture);
    LINE(",Livestock,n2o_ngrazing,", sum.n2o_pasture);
    LINE(",Livestock,n_remain_grazing,", sum.n_remain);
    LINE(",Livestock,tan_remain_grazing,", sum.tan_remain);
    return out;
}

// ---- the notes, the cuts and the reasons, which the vectors have and the benchmark does not time

static int has_yard(const struct herd *herd) { return herd->kind == CATTLE || herd->kind == DAIRY; }

static int n_is_off(uint64_t n, uint64_t standard) { return n * 10 < standard * 7 || n * 10 > standard * 13; }

static int tan_is_off(uint64_t tan, uint64_t standard) { return tan + 2000 < standard || tan > standard + 2000; }

static uint8_t *put_notes(uint8_t *out, const struct herd *herd) {
    static const char *const words[] = {"no", "yes"};
    const uint32_t *v = herd->values;
    int n_off = 0, tan_off = 0, free_factor = 0, lowered = 0, above = 0;
    uint8_t label[LABEL_ROOM];
    size_t length = printed_label(herd, label);
    if (herd->kind == ROUGHAGE) {
        uint64_t standard = standards[v[R_CATEGORY]], n = v[R_EXCRETION] == STANDARD ? standard : v[R_EXCRETION];
        n_off = n_is_off(n, standard);
        tan_off = tan_is_off(v[R_TAN] == STANDARD ? 4000 : v[R_TAN], 4000);
        free_factor = v[R_LEFT] != 100;
        above = housing_rate_before(v[R_DAYS], v[R_HOURS], v[R_LEFT]) > 1000000000;
    } else if (has_yard(herd)) {
        n_off = herd->kind == DAIRY && n_is_off(v[C_EXCRETION], 112000);
        tan_off = herd->kind == DAIRY && tan_is_off(tan_with_yard(v), 5500);
        free_factor = v[C_LEFT] != 100;
        lowered = v[C_DAYS] + v[C_YARD_DAYS] > 365 && yard_tenths[v[C_YARD]] > 2;
    } else {
        free_factor = v[P_LEFT] != 100;
    }
    return out + sprintf((char *)out, "%.*s,%s,%s,%s,%s,%s\r\n", (int)length, (const char *)label, words[n_off],
                         words[tan_off], words[free_factor], words[lowered], words[above]);
}

// A cut: the module behind the kind's, the name, what was cut off, the divisor.
#define CUT(under, dividend, divisor)                                                                                        \
    out += sprintf((char *)out, "%.*s,Livestock::%s::%s,%llu,%llu\r\n", (int)length, (const char *)label, kind, under,      \
                   (unsigned long long)((uint64_t)(dividend) % (divisor)), (unsigned long long)(divisor))

static uint8_t *put_cuts(uint8_t *out, const struct herd *herd) {
    static const char *const kinds[] = {
        [ROUGHAGE] = "RoughageConsuming", [CATTLE] = "OtherCattle", [PIGS] = "FatteningPigs", [DAIRY] = "DairyCow"};
    const char *kind = kinds[herd->kind];
    const uint32_t *v = herd->values;
    const uint64_t one = 1000000000;
    struct figures f;
    uint8_t label[LABEL_ROOM];
    size_t length = printed_label(herd, label);
    uint64_t nh3 = 2000, n2o = 200, fraction = 0, out_time = 0, out_of = 0;
    figures_of(herd, &f);
    if (herd->kind == ROUGHAGE) {
        fraction = v[R_TAN] == STANDARD ? 4000 : v[R_TAN];
        out_time = (uint64_t)v[R_DAYS] * v[R_HOURS];
        out_of = 87600;
        nh3 = 1250;
        n2o = 100;
    } else {
        fraction = has_yard(herd) ? tan_with_yard(v) : v[P_TAN];
    }
    CUT("Excretion,tan_excretion", f.n * fraction, 10000);
    if (has_yard(herd)) {
        uint64_t days = v[C_DAYS], yard_days = v[C_YARD_DAYS], both = days + yard_days > 365 ? days + yard_days - 365 : 0;
        uint64_t share = yard_tenths[v[C_YARD]], on_both = share > 2 ? 2 : share;
        uint64_t yard = share * (yard_days - both) + on_both * both;
        CUT("Yard,n_into_yard", f.n * yard, 3650);
        CUT("Yard,tan_into_yard", f.tan * yard, 3650);
        CUT("Yard,nh3_nyard", f.tan_yard * yard_factor(v) * 1000, 100000000);
        out_time = v[C_HOURS] * (10 * (days - both) + (10 - on_both) * both);
        out_of = 876000;
        nh3 = 830;
    }
    if (out_of) {
        CUT("Grazing,n_into_grazing", f.n * out_time, out_of);
        CUT("Grazing,tan_into_grazing", f.tan * out_time, out_of);
    }
    CUT("Grazing,nh3_ngrazing", f.tan_pasture * nh3, 10000);
    CUT("Grazing,n2_ngrazing", 0, 10000);
    CUT("Grazing,no_ngrazing", f.n_pasture * 55, 10000);
    CUT("Grazing,n2o_ngrazing", f.n_pasture * n2o, 10000);
    if (herd->kind == ROUGHAGE) {
        uint64_t days = v[R_DAYS], hours = v[R_HOURS], left = v[R_LEFT], c = one;
        if (out_time < 87600) {
            uint64_t grown = (365 - days) * 240 * one + days * (240 - hours) * k[hours];
            c = grown / (87600 - out_time);
            CUT("Housing,c_grazing", grown, 87600 - out_time);
        }
        CUT("Housing,ef_nh3_nhousing:er_housing", c * 275, 1000);
        CUT("Housing,ef_nh3_nhousing:c_free_factor_housing", c * 275 / 1000 * left, 100);
        CUT("Housing,nh3_nhousing", f.tan_housing * housing_rate(days, hours, left), one);
    }
    if (herd->kind == PIGS) {
        const struct house *house = &houses[v[P_HOUSING]];
        struct pig_factors e = pig_factors(v);
        uint64_t rate = house->rate * 1000000ull * v[P_LEFT], air = 10 - air_tenths[v[P_AIR]];
        uint64_t scrubbed = f.tan * scrubbed_factor(v);
        uint64_t solid = house->solid ? f.n_housing : 0, liquid = f.n_housing - solid;
        CUT("Housing,ef_housing_indoor_before_air_scrubber:c_free_factor_housing", rate, 100);
        CUT("Housing,ef_housing_indoor_before_air_scrubber:red_housing_air", rate / 100 * air, 10);
        CUT("Housing,ef_housing_indoor", e.before * (10 - scrubber_tenths[v[P_SCRUBBER]]), 10);
        CUT("Housing,ef_housing_grazing:c_free_factor_housing", rate, 100);
        CUT("Housing,ef_nh3_nhousing:ef_housing_indoor", house->indoor_tenths * e.indoor, 10);
        CUT("Housing,ef_nh3_nhousing:ef_housing_grazing", (10 - house->indoor_tenths) * e.grazing, 10);
        CUT("Housing,nh3_nhousing", f.tan_housing * e.whole, one);
        if (v[P_SCRUBBER] == BIOTRICKLING) {
            CUT("Housing,tan_air_scrubber:tan_excretion", scrubbed, one);
            CUT("Housing,tan_air_scrubber:ef_housing_indoor_before_air_scrubber", scrubbed / one * e.before, one);
        }
        CUT("NxOx,n2_nsolid", solid * house->n2, 10000);
        CUT("NxOx,no_nsolid", solid * house->no, 10000);
        CUT("NxOx,n2o_nsolid", solid * house->n2o, 10000);
        CUT("NxOx,n2_nliquid", liquid * house->n2, 10000);
        CUT("NxOx,no_nliquid", liquid * house->no, 10000);
        CUT("NxOx,n2o_nliquid", liquid * house->n2o, 10000);
    }
    return out;
}

// ---- the program

// Longer than any listing of a herd or of the totals.
enum { LISTING_MOST = 4096 };

static struct farm farm;
static uint8_t output[(COOPERATIVE_HERDS + 1) * LISTING_MOST];

// What stands before a farm file whose work is repeated.
enum { HEAD = 10 };
static uint8_t input_bytes[HEAD + COOPERATIVE_BYTES + 1];

static size_t read_up_to(uint8_t *to, size_t most) {
    size_t done = 0;
    while (done < most) {
        ssize_t got = read(0, to + done, most - done);
        if (got <= 0) break;
        done += (size_t)got;
    }
    return done;
}

static void write_all(const uint8_t *from, size_t length) {
    while (length > 0) {
        ssize_t put = write(1, from, length);
        if (put <= 0) exit(1);
        from += put;
        length -= (size_t)put;
    }
}

// Each herd, then the totals; the end of it.
static uint8_t *list_farm(uint8_t *out) {
    for (uint32_t i = 0; i < farm.count; i++) out = list_herd(out, &farm.herds[i]);
    return list_totals(out, &farm);
}

static uint8_t *put_refusal(uint8_t *out, struct refusal r) {
    return out + sprintf((char *)out, "refused,%u,%u\r\n", r.number, r.record);
}

// What a file is answered with, into the output; the end of it.
static uint8_t *put_answer(const uint8_t *file, size_t length, struct limits limits) {
    struct refusal r = read_farm(file, length, limits, &farm);
    return r.number ? put_refusal(output, r) : list_farm(output);
}

static void answer(const uint8_t *file, size_t length, struct limits limits) {
    const uint8_t *end = put_answer(file, length, limits);
    write_all(output, (size_t)(end - output));
}

// Why the yard has its share on days with both: the first reason that holds, the days, and the shares in tenths.
enum reason { NO_SUCH_DAYS, NOT_AVAILABLE, AS_CHOSEN, LOWERED };

struct why {
    enum reason reason;
    unsigned days, chosen, share;
};

static struct why why_of(const struct herd *herd) {
    const uint32_t *v = herd->values;
    unsigned sum = v[C_DAYS] + v[C_YARD_DAYS], chosen = yard_tenths[v[C_YARD]];
    struct why w = {LOWERED, sum > 365 ? sum - 365 : 0, chosen, 2};
    if (w.days == 0) w.reason = NO_SUCH_DAYS;
    else if (v[C_YARD] == 0) w.reason = NOT_AVAILABLE;
    else if (chosen <= 2) w.reason = AS_CHOSEN;
    if (w.reason != LOWERED) w.share = w.reason == NOT_AVAILABLE ? 0 : chosen;
    return w;
}

static uint8_t *put_why(uint8_t *out, const struct herd *herd) {
    static const char *const words[] = {"no_such_days", "not_available", "as_chosen", "lowered"};
    if (!has_yard(herd)) return out;
    uint8_t label[LABEL_ROOM];
    size_t length = printed_label(herd, label);
    struct why w = why_of(herd);
    return out + sprintf((char *)out, "%.*s,%s,%u,%u.%u\r\n", (int)length, (const char *)label, words[w.reason], w.days,
                         w.share / 10, w.share % 10);
}

static uint8_t *put_why_in_words(uint8_t *out, const struct herd *herd) {
    static const char *const goes_on[] = {"since there is no such day and the chosen share stays",
                                          "since no yard is available and the chosen share is", "the same as the chosen share of",
                                          "lowered from the chosen share of"};
    if (!has_yard(herd)) return out;
    uint8_t label[LABEL_ROOM];
    size_t length = printed_label(herd, label);
    struct why w = why_of(herd);
    return out + sprintf((char *)out,
                         "%.*s: with both yard and pasture on %u of 365 days, the yard's share on such days is %u.%u, %s %u.%u.\r\n",
                         (int)length, (const char *)label, w.days, w.share / 10, w.share % 10, goes_on[w.reason], w.chosen / 10,
                         w.chosen % 10);
}

// What a command prints that lists each herd and no totals.
static void answer_with(uint8_t *put(uint8_t *, const struct herd *), const uint8_t *file, size_t length,
                        struct limits limits) {
    struct refusal r = read_farm(file, length, limits, &farm);
    uint8_t *end = output;
    if (r.number) end = put_refusal(output, r);
    else for (uint32_t i = 0; i < farm.count; i++) end = put(end, &farm.herds[i]);
    write_all(output, (size_t)(end - output));
}

// ---- the farm written as a file. Nothing of it is measured: `put_whole` is left to what is.

#define EXCRETION_INPUTS(kind)                            \
    "Livestock::" kind "::Excretion,animals",             \
        "Livestock::" kind "::Excretion,inp_n_excretion", \
        "Livestock::" kind "::Excretion,tan_fraction"

#define OUTDOOR_INPUTS(kind)                                           \
    "Livestock::" kind "::Outdoor,yard_days",                          \
        "Livestock::" kind "::Outdoor,exercise_yard",                  \
        "Livestock::" kind "::Outdoor,floor_properties_exercise_yard", \
        "Livestock::" kind "::Outdoor,free_correction_factor",         \
        "Livestock::" kind "::Outdoor,grazing_days",                   \
        "Livestock::" kind "::Outdoor,grazing_hours"

// The module and the name of each input of the list.
static const char *const input_texts[] = {
    "Livestock::RoughageConsuming::Excretion,animalcategory",
    EXCRETION_INPUTS("RoughageConsuming"),
    "Livestock::RoughageConsuming::Housing::CFreeFactor,free_correction_factor",
    "Livestock::RoughageConsuming::Grazing,grazing_days",
    "Livestock::RoughageConsuming::Grazing,grazing_hours",
    EXCRETION_INPUTS("OtherCattle"),
    OUTDOOR_INPUTS("OtherCattle"),
    EXCRETION_INPUTS("FatteningPigs"),
    "Livestock::FatteningPigs::Housing::Type,housing_type",
    "Livestock::FatteningPigs::Housing::AirScrubber,air_scrubber",
    "Livestock::FatteningPigs::Housing::MitigationOptions,mitigation_housing_floor",
    "Livestock::FatteningPigs::Housing::MitigationOptions,mitigation_housing_air",
    "Livestock::FatteningPigs::Housing::CFreeFactor,free_correction_factor",
    EXCRETION_INPUTS("DairyCow"),
    OUTDOOR_INPUTS("DairyCow"),
};

// The names of each form that has names.
static const char *const value_names[][11] = {
    [CATEGORY] = {"fallow_deer", "red_deer", "wapiti", "bison_older_than_3yr", "bison_younger_than_3yr",
                  "lama_older_than_2yr", "lama_younger_than_2yr", "alpaca_older_than_2yr", "alpaca_younger_than_2yr",
                  "rabbit_doe_kits", "rabbit_young"},
    [YARD] = {"not_available", "available_roughage_is_not_supplied_in_the_exercise_yard",
              "available_roughage_is_partly_supplied_in_the_exercise_yard",
              "available_roughage_is_exclusively_supplied_in_the_exercise_yard"},
    [FLOOR] = {"solid_floor", "unpaved_floor", "perforated_floor", "paddock_or_pasture_used_as_exercise_yard"},
    [HOUSING] = {"Slurry_Conventional", "Slurry_Label", "Slurry_Label_Open", "Deep_Litter", [OUTDOOR_PIGS] = "Outdoor"},
    [SCRUBBER] = {[NO_SCRUBBER] = "none", [ACID] = "acid", [BIOTRICKLING] = "biotrickling"},
    [HOUSING_FLOOR] = {"none"},
    [HOUSING_AIR] = {"none", "low_impuls_air_supply"},
};

// A number in units of its last decimal, without the zeros at the decimals' end.
static uint8_t *put_shortest(uint8_t *out, uint32_t n, int decimals) {
    for (; decimals > 0 && n % 10 == 0; decimals--) n /= 10;
    uint32_t unit = 1;
    for (int i = 0; i < decimals; i++) unit *= 10;
    out += sprintf((char *)out, "%u", n / unit);
    return decimals == 0 ? out : out + sprintf((char *)out, ".%0*u", decimals, n % unit);
}

static uint8_t *put_value(uint8_t *out, const struct input *input, uint32_t value) {
    if (value == STANDARD) return out + sprintf((char *)out, "standard");
    switch (input->form) {
    case NUMBER:
    case OR_STANDARD:
    case NO_STANDARD: return put_shortest(out, value, input->decimals);
    case FREE: return out + sprintf((char *)out, "%d", 100 - (int)value);
    default: return out + sprintf((char *)out, "%s", value_names[input->form][value]);
    }
}

static uint8_t *put_records(uint8_t *out, const struct herd *herd) {
    uint8_t label[LABEL_ROOM];
    size_t length = printed_label(herd, label);
    for (size_t i = 0; i < sizeof inputs / sizeof inputs[0]; i++) {
        if (inputs[i].kind != herd->kind) continue;
        out += sprintf((char *)out, "%.*s,%s,", (int)length, (const char *)label, input_texts[i]);
        out = put_value(out, &inputs[i], herd->values[inputs[i].slot]);
        out += sprintf((char *)out, "\r\n");
    }
    return out;
}

// Refused too where it is longer than a file may be.
static void answer_with_file(const uint8_t *file, size_t length, struct limits limits) {
    struct refusal r = read_farm(file, length, limits, &farm);
    uint8_t *end = output;
    if (!r.number) for (uint32_t i = 0; i < farm.count; i++) end = put_records(end, &farm.herds[i]);
    if (end - output > limits.bytes) r = refused(1, 0);
    if (r.number) end = put_refusal(output, r);
    write_all(output, (size_t)(end - output));
}

static int run_cases(void) {
    static uint8_t file[1 << 20];
    uint8_t head[4];
    while (read_up_to(head, 4) == 4) {
        size_t length = head[0] | (size_t)head[1] << 8 | (size_t)head[2] << 16 | (size_t)head[3] << 24;
        if (length < 1 || length > sizeof file || read_up_to(file, length) < length) return 1;
        struct limits limits = limits_of(file[0]);
        answer(file + 1, length - 1, limits);
        answer_with(put_notes, file + 1, length - 1, limits);
        answer_with(put_cuts, file + 1, length - 1, limits);
        answer_with(put_why, file + 1, length - 1, limits);
        answer_with(put_why_in_words, file + 1, length - 1, limits);
        answer_with_file(file + 1, length - 1, limits);
    }
    return 0;
}

// ---- the repeated work. The checksum takes little of each answer, so that it costs nearly nothing and still needs the answer.

static uint64_t mixed(uint64_t sum, uint64_t x) { return (sum * 31 + x) % 1000003; }

static uint64_t farm_sum(uint64_t sum, uint64_t turn) {
    sum = mixed(sum, farm.count);
    if (farm.count == 0) return sum;
    const struct herd *h = &farm.herds[turn % farm.count];
    uint32_t v = h->values[turn % 4];
    return mixed(mixed(sum, h->label_length), v == STANDARD ? 1 : v);
}

static uint64_t text_sum(uint64_t sum, uint64_t turn, const uint8_t *end) {
    size_t length = (size_t)(end - output);
    return mixed(mixed(sum, length), output[turn % length]);
}

static uint64_t read_sum(uint64_t sum, uint64_t turn, struct refusal r) {
    return r.number ? mixed(mixed(sum, r.number), r.record) : farm_sum(sum, turn);
}

static int run_repeat(void) {
    size_t length = read_up_to(input_bytes, sizeof input_bytes);
    if (length < HEAD) return 1;
    uint8_t mode = input_bytes[0];
    struct limits limits = limits_of(input_bytes[1]);
    uint64_t times = 0, sum = 0;
    for (int i = 2; i < HEAD; i++) times = times * 10 + (uint64_t)(input_bytes[i] - '0');
    const uint8_t *file = input_bytes + HEAD;
    length -= HEAD;
    if (mode == 'l' && read_farm(file, length, limits, &farm).number) return 1;
    for (uint64_t turn = times; turn > 0; turn--) {
        switch (mode) {
        case 'r': sum = read_sum(sum, turn, read_farm(file, length, limits, &farm)); break;
        case 'l': sum = text_sum(sum, turn, list_farm(output)); break;
        default: sum = text_sum(sum, turn, put_answer(file, length, limits));
        }
    }
    printf("%llu\n", (unsigned long long)sum);
    return 0;
}

int main(int count, char **words) {
    if (count == 2 && strcmp(words[1], "cases") == 0) return run_cases();
    if (count == 2 && strcmp(words[1], "repeat") == 0) return run_repeat();
    struct limits limits = limits_of(count == 2 ? (uint8_t)words[1][0] : 's');
    answer(input_bytes, read_up_to(input_bytes, limits.bytes + 1), limits);
    return 0;
}
