// Random texts for the program, each made from a seed and a number: `make_input`.

typedef unsigned long Word;
typedef unsigned char Byte;

int snprintf(char *, Word, const char *, ...);

enum { LONGEST = 65600 }; // bytes of a text

// ---- random numbers

static Word state;

// The next random word (splitmix64).
static Word next(void) {
    Word z = state += 0x9E3779B97F4A7C15;
    z = (z ^ z >> 30) * 0xBF58476D1CE4E5B9;
    z = (z ^ z >> 27) * 0x94D049BB133111EB;
    return z ^ z >> 31;
}

// A random number below a bound.
static Word below(Word bound) { return next() % bound; }

// True once in so many times; never where that is 0.
static int one_in(Word times) { return times != 0 && below(times) == 0; }

// ---- texts, with noise

static Byte text[LONGEST]; // the text that was made
static Word length, word_count;
static Word word_noise, byte_noise; // one word, one byte in so many is damaged; 0 for none

// Hands an item on; noise changes it, drops it, doubles it or puts another one before it.
static void put_noisy(void put_item(Word), Word noise, Word item, Word other) {
    Word damage = one_in(noise) ? below(4) : 4;
    if (damage == 1) return;
    if (damage == 2) put_item(item);
    if (damage == 3) put_item(other);
    put_item(damage == 0 ? other : item);
}

// Puts a byte, where there is room.
static void put_plain_byte(Word byte) {
    if (length < LONGEST) text[length++] = (Byte)byte;
}

// A byte that a text has.
static Word text_byte(void) {
    static const char bytes[] = "[],,,,0123456789 0000111122225\t\n\r";
    return (Word)bytes[below(sizeof bytes - 1)];
}

// Puts a byte with noise: another one is any, or mostly one of a text.
static void put_byte(Word byte) { put_noisy(put_plain_byte, byte_noise, byte, one_in(3) ? below(256) : text_byte()); }

// Puts a word in digits after the bracket or a comma, now and then after white space too, seldom after a lot of it.
static void put_plain_word(Word word) {
    char digits[24];
    int count = snprintf(digits, sizeof digits, "%lu", word);
    put_byte(word_count++ == 0 ? '[' : ',');
    if (one_in(20)) put_byte((Word) " \t\n\r"[below(4)]);
    for (Word spaces = one_in(5000) ? below(2 * LONGEST) : 0; spaces > 0; spaces--) put_plain_byte(' ');
    for (int i = 0; i < count; i++) put_byte((Word)digits[i]);
}

// A number: mostly small, else one near a limit.
static Word number(void) {
    static const Word edges[] = {255, 256, 257, 10001, 65536, 2147483648, 4294967294, 4294967295, 4294967296, ~0ul};
    return one_in(30) ? edges[below(sizeof edges / sizeof *edges)] : below(6);
}

// Puts a word with noise.
static void put_word(Word word) { put_noisy(put_plain_word, word_noise, word, one_in(3) ? number() : below(16)); }

// Puts the closing bracket, and the opening one too after no word.
static void close_text(void) {
    if (word_count == 0) put_byte('[');
    put_byte(']');
}

// ---- programs

// Shapes of statements, events and draws. A digit, or a to f for 10 to 15, is that word; v is a variable,
// n a number, w one near 4,096, u an unroll, ? 0 or 1, S a set, D a draw, E an event, L a list of statements,
// P one of plain statements, O loops within loops, R a row of nots; the last two may pass their limits.
// The first PLAIN statements and events are plain: they have no list and no event in them. The last statement
// normalizes two variables, and draws them first: many values of both would take the program too long.
enum { PLAIN = 4 };
static const char *const statements[] = {"1v?D", "2v?1nvn", "2v?000n", "3vn", "4ELL", "4ELL", "500EL", "51uEL", "6", "70L", "71vP", "7031005u11027201P"};
static const char *const events[] = {"1vS", "1vS", "2vv", "3nD", "4E", "50", "51E", "52EE"};
static const char *const draws[] = {"1n1", "2", "3v", "5n", "5n", "6n", "cnn", "cnn", "4v", "7v", "8n", "9", "a", "bv"};
static const char *const odd_draws[] = {"1nn", "d", "e", "f"};
#define ONE_OF(shapes) ((shapes)[below(sizeof(shapes) / sizeof *(shapes))])

static void put_list(Word count, int room);

// Puts a set, seldom one of about as many values as are allowed.
static void put_set(void) {
    Word count = one_in(100) ? 250 + below(10) : below(5);
    put_word(count);
    for (; count > 0; count--) put_word(number());
}

// Puts the words of a shape; the lists in it are nested at most `room` deep.
static void put_shape(const char *shape, int room) {
    for (; *shape != 0; shape++) {
        switch (*shape) {
        case 'v': put_word(one_in(200) ? 60 + below(6) : below(4)); break;
        case 'n': put_word(number()); break;
        case 'w': put_word(4080 + below(32)); break;
        case 'u': put_word(below(6)); break;
        case '?': put_word(below(2)); break;
        case 'S': put_set(); break;
        case 'D': put_shape(one_in(50) ? ONE_OF(odd_draws) : ONE_OF(draws), room); break;
        case 'E': put_shape(room > 0 ? ONE_OF(events) : events[below(PLAIN)], room - 1); break;
        case 'O': for (Word loops = below(6); loops > 0; loops--) put_shape("1500100", 0); break;
        case 'R': for (Word nots = below(20); nots > 0; nots--) put_word(4); break;
        case 'L': put_list(below(3), room - 1); break;
        case 'P': put_list(below(3), 0); break;
        default: put_word((Word)(*shape <= '9' ? *shape - '0' : *shape - 'a' + 10));
        }
    }
}

// Puts a list of statements, plain ones where there is no room.
static void put_list(Word count, int room) {
    put_word(count);
    for (; count > 0; count--) put_shape(room > 0 ? ONE_OF(statements) : statements[below(PLAIN)], room);
}

// ---- inputs

// Puts any bytes, or such as a text has.
static void put_bytes(int any) {
    if (!any && one_in(2)) put_byte('[');
    for (Word count = one_in(100) ? below(LONGEST + 1) : below(200); count > 0; count--) put_byte(any ? below(256) : text_byte());
}

// Puts small words, seldom very many of them.
static void put_small_words(void) {
    for (Word count = one_in(100) ? below(LONGEST / 2) : below(40); count > 0; count--) put_word(below(one_in(8) ? 16 : 4));
    close_text();
}

// Puts a program, seldom a long one of plain statements, a deep one, or one that enumerates about 4,096 values.
static void put_program(void) {
    if (one_in(200)) put_list(below(2000), 0);
    else if (one_in(100)) put_shape("O14R2vv00", 0);
    else if (one_in(100)) put_shape("210?5w710P", 0);
    else put_list(1 + below(4), 2);
    close_text();
}

// Makes an input, in turn any bytes, bytes of texts, small words, three programs, one with damaged words, one with damaged bytes.
static void make_input(Word seed, Word index) {
    Word turn = index % 8;
    state = seed;
    state = next() + index;
    length = word_count = 0;
    word_noise = turn == 6 ? 20 : 0;
    byte_noise = turn == 7 ? 60 : 0;
    if (turn < 2) put_bytes(turn == 0);
    else if (turn == 2) put_small_words();
    else put_program();
}
