/* Sverdhyll for C: the checker, the reader of words, the runner of steps, and the evidence file.

   Every function may be called with any bytes and any numbers. A text or a list is a pointer and a length; where the length is 0 the pointer is not read.

   A call keeps nothing for the next one, so that several may run at once. It runs on the caller's stack: sverdhyll_answer and sverdhyll_check take up to
   1.52 MiB of it, whatever they are given (measured at the limits of all inputs, docs/MEASUREMENTS.md), sverdhyll_steps and the calls of the evidence file up to
   1.59 MiB, the check of an evidence file in libauditing.a up to 1.99 MiB; sverdhyll_read, which evaluates nothing, and sverdhyll_run take less. A thread of 2 MiB
   suffices for each call; one of 1 MiB does not for every input, and a call that needs more than there is ends the program.

   Which static library has which function (`tools/staticlib NAME` makes target/staticlib/libNAME.a; link one of them):

     libchecker.a   sverdhyll_answer, sverdhyll_check, sverdhyll_read, sverdhyll_word, sverdhyll_position, sverdhyll_steps, sverdhyll_run,
                    sverdhyll_write_evidence, sverdhyll_check_evidence
     libwords.a     sverdhyll_words, sverdhyll_word, sverdhyll_position
     librunner.a    sverdhyll_run
     libauditing.a  sverdhyll_check_evidence

   ./install DIR puts libchecker.a to DIR/lib/libsverdhyll.a, with a file for pkg-config:
   cc $(pkg-config --cflags sverdhyll) .. $(pkg-config --libs sverdhyll) */
#ifndef SVERDHYLL_H
#define SVERDHYLL_H

#include <stddef.h>
#include <stdint.h>

#ifdef __cplusplus
extern "C" {
#endif

/* The numbers of the answers. */
enum {
    SVERDHYLL_ACCEPTED = 0,
    SVERDHYLL_TOO_LONG = 1,
    SVERDHYLL_BAD_WORD = 2,
    SVERDHYLL_BRACKET = 3,
    SVERDHYLL_PAST_LIMIT = 4,
    SVERDHYLL_UNKNOWN_SHAPE = 5,
    SVERDHYLL_NOT_CARRIED = 6,
    SVERDHYLL_NAME = 7,
    SVERDHYLL_SORT = 8,
    SVERDHYLL_GRAMMAR = 9,
    SVERDHYLL_FAIL = 10,
    SVERDHYLL_INFEASIBLE = 11,
    SVERDHYLL_HEADER = 12,
    SVERDHYLL_NO_DERIVATION = 13,
    SVERDHYLL_FALSE = 14,
    SVERDHYLL_BUDGET_ENDED = 15,
    SVERDHYLL_BAD_POINTS = 16,
    SVERDHYLL_AREA_MISSIZED = 17,
    SVERDHYLL_NO_STEPS = 18,
    SVERDHYLL_BAD_STEP = 19,
    SVERDHYLL_BAD_ARGUMENT = 20,
    SVERDHYLL_WRONG_BLOCK = 21,
    SVERDHYLL_NOT_FOLLOWED = 22
};

/* Which text an answer speaks of. */
enum {
    SVERDHYLL_SCRIPT = 0,
    SVERDHYLL_RESPONSE = 1,
    SVERDHYLL_POINTS = 2,
    SVERDHYLL_NONE = 3 /* no text, or the area */
};

/* Sizes that are not the caller's choice. */
enum {
    SVERDHYLL_AREA = 32768,           /* how many entries the area must have */
    SVERDHYLL_LIST = 4096,            /* how many of them are for the list of one function */
    SVERDHYLL_UNUSED = 65535,         /* an entry that no list uses */
    SVERDHYLL_STEPS_AREA = 1024,      /* how many numbers the area for steps must have */
    SVERDHYLL_MOST_EVIDENCE = 140288, /* bytes: no evidence file that is written or accepted is longer */
    SVERDHYLL_MOST_SCRIPT = 65536,    /* bytes */
    SVERDHYLL_MOST_RESPONSE = 8192,   /* bytes */
    SVERDHYLL_MOST_POINTS = 1024,     /* numbers */
    SVERDHYLL_MOST_FUNCTIONS = 8,     /* synthesized ones */
    SVERDHYLL_FIRST_ASSUMPTION = 64   /* answer 15 numbers assumptions from here */
};

/* The indexes of the numbers of an answer. */
enum {
    SVERDHYLL_NUMBER = 0,
    SVERDHYLL_TEXT = 1,
    SVERDHYLL_PLACE = 2,
    SVERDHYLL_SECOND = 3,
    SVERDHYLL_UNITS = 4,
    SVERDHYLL_END = 5,
    SVERDHYLL_LINE = 6,
    SVERDHYLL_COLUMN = 7,
    SVERDHYLL_WEIGHT = 8, /* of the first function; that of function k is k behind it */
    SVERDHYLL_ANSWER = 16 /* how many numbers an answer has */
};

/* Checks a response against a script at points within a budget. Returns the answer's number, and puts the sixteen numbers of the answer where `answer` points
   (which may not be NULL): the number once more, which text it speaks of, its place, its second number and the units spent, of its place the end, the line and
   the column, and for each of eight functions the total weight of the derivation shown.

   `points` has one number for each declared variable, point after point; a Bool is 0 or 1. With no variables it is empty, and one empty point is taken.

   | No. | Meaning                              | Text    | Place                                             | Second       | Units |
   |-----|--------------------------------------|---------|---------------------------------------------------|--------------|-------|
   |   0 | accepted                             | 3       | 0                                                 | points whose | spent |
   |     |                                      |         |                                                   | assumptions  |       |
   |     |                                      |         |                                                   | all held     |       |
   |   1 | script / response / points too long, | 0, 1, 2 | its length                                        | 0            | 0     |
   |     | or the area not of its size          | 3       | its length                                        | 0            | 0     |
   |   2 | bad word                             | 0, 1    | the word                                          | 0            | 0     |
   |   3 | bracket closed too often             | 0, 1    | the bracket                                       | 0            | 0     |
   |     | bracket never closed                 | 0, 1    | the text's length                                 | 0            | 0     |
   |   4 | past a limit                         | 0, 1    | the word past it; of a command, rule, argument,   | 0            | 0     |
   |     |                                      |         | non-terminal or node the first word               |              |       |
   |   5 | shape unknown                        | 0, 1    | the command's bracket; where no command holds it, | 0            | 0     |
   |     |                                      |         | the word; the text's length where it ends early   |              |       |
   |   6 | not carried                          | 0, 1    | the same; for a word that is itself not carried,  | 0            | 0     |
   |     |                                      |         | that word                                         |              |       |
   |   7 | name unknown or reserved             | 0, 1    | the name                                          | 0            | 0     |
   |     | name taken                           | 0       | the name                                          | place of its | 0     |
   |     |                                      |         |                                                   | declaration  |       |
   |   8 | sort fault                           | 0, 1    | first word of the faulty sort, or of the faulty   | 0            | 0     |
   |     |                                      |         | term whose operands have no fault                 |              |       |
   |   9 | grammar fault                        | 0       | first word of the rule, the listed name (the      | 0            | 0     |
   |     |                                      |         | predeclared one for the start's sort), or the     |              |       |
   |     |                                      |         | bracket that closes a list too early; where there |              |       |
   |     |                                      |         | is none of these, the predeclared name of the     |              |       |
   |     |                                      |         | first non-terminal that derives no term           |              |       |
   |  10 | the response is `fail`               | 1       | 0                                                 | 0            | 0     |
   |  11 | the response is `infeasible`         | 1       | 0                                                 | 0            | 0     |
   |  12 | response header differs              | 1       | its first word differing; a function missing: the | 0            | 0     |
   |     |                                      |         | outer list's last bracket; one too many: its own  |              |       |
   |  13 | no derivation                        | 1       | the body's first word                             | the function | 0     |
   |  14 | constraint false                     | 2       | the point                                         | constraint   | spent |
   |  15 | budget ended                         | 2       | the point                                         | constraint,  | spent |
   |     |                                      |         |                                                   | or 64 +      |       |
   |     |                                      |         |                                                   | assumption   |       |
   |  16 | points not whole                     | 2       | the list's length                                 | 0            | 0     |
   |     | a number outside its sort            | 2       | its index in the list                             | 0            | 0     |

   A word, a bracket and a length are offsets in bytes; functions, points, constraints and assumptions are numbered from 0. At each point the assumptions come
   first, up to the first false one, which skips the point's constraints: the points whose assumptions all held are those at which constraints were evaluated.
   "Spent" is the summed cost of the evaluations done, that of a false assumption or constraint included.

   `shown` is the area; `shown_len` must be 32,768. After 0, 14 and 15 it shows a derivation of every function's body: the numbers of the rules, leftmost first,
   those of function k from entry 4,096 * k on; every entry that no list uses is 65,535. After any other answer every entry is 65,535. An area of another size
   is unchanged, whatever the answer. Of all derivations of a body the least one is shown: of least total weight, then with fewest rules, then with the least
   rule numbers at the first difference. answer[8 + k] is its total weight; 0 where none is shown, and so after all answers but 0, 14 and 15.

   Answers 2 to 9, 12 and 13 carry the end of the word at their place, which is the offset past it, and the line and the column of the place; in all other
   answers these three are 0. Lines and columns count from 1, columns in bytes, and a line ends at byte 10 only. Where the place is a bracket, the end is one
   past it; of a word past its size it is the end of the whole word. Where the place is the text's length, so is the end, and line and column are those after
   the last byte: column 1 of the next line where that is byte 10, line 1 and column 1 of an empty text. */
uint8_t sverdhyll_answer(const uint8_t *script, size_t script_len, const uint8_t *response, size_t response_len, const uint64_t *points, size_t points_len,
                         uint64_t budget, uint16_t *shown, size_t shown_len, uint64_t answer[SVERDHYLL_ANSWER]);

/* The same answer without end, line, column and weights: returns its number, and puts which text it speaks of, its place, its second number and the units spent where
   `text`, `place`, `second` and `units` point (none of which may be NULL). */
uint8_t sverdhyll_check(const uint8_t *script, size_t script_len, const uint8_t *response, size_t response_len, const uint64_t *points, size_t points_len,
                        uint64_t budget, uint16_t *shown, size_t shown_len, uint8_t *text, uint64_t *place, uint64_t *second, uint64_t *units);

/* The texts' own answer, for which no points, no budget and no area are needed: no derivation is searched, and nothing is evaluated. Returns its number, and
   puts the sixteen numbers of the answer where `answer` points (which may not be NULL).

   It is 1 where the script or the response is too long, and 2 to 12 where one of them is refused, each as in the table above, with the end, the line and the
   column that sverdhyll_answer gives; the units are 0. Where both texts pass it is 0: the text is 3, and all numbers behind that are 0.

   With points and an area that answer 1 does not refuse, sverdhyll_answer gives the same sixteen numbers where this is 1 to 12, and 0 or 13 to 16 where this is
   0. A text that is too long is answered alike, whatever points and area are. */
uint8_t sverdhyll_read(const uint8_t *script, size_t script_len, const uint8_t *response, size_t response_len, uint64_t answer[SVERDHYLL_ANSWER]);

/* The length of the word that starts at offset `at` of the text; 0 if no word starts there. */
size_t sverdhyll_word(const uint8_t *text, size_t text_len, size_t at);

/* Puts the line and the column of offset `place` of any text where `line` and `column` point (neither of which may be NULL), counted as those of an answer. A
   place past the text's end has those of its end. The end of the word there is place + sverdhyll_word(text, text_len, place). */
void sverdhyll_position(const uint8_t *text, size_t text_len, size_t place, uint64_t *line, uint64_t *column);

/* Numbers of words in the table of `sverdhyll_words`. */
enum {
    SVERDHYLL_OPEN = 1,
    SVERDHYLL_CLOSE = 2,
    SVERDHYLL_NUMERAL = 3,
    SVERDHYLL_LITERAL = 4,
    SVERDHYLL_SYMBOL = 5,
    SVERDHYLL_KEYWORD = 6, /* `:weights` or `:weight` */
    SVERDHYLL_ROW = 5 /* how many numbers a word has in the table */
};

/* Reads the words of a text that may have at most `bytes` bytes, `words` words (brackets counted) and `nesting` lists within one another.

   Returns 0 where the whole text was read; else the number of the answer that refuses it: 1 too long, 2 bad word, 3 bracket closed too often or never
   closed, 4 past a limit, 6 not carried. `*place` is then the offset of the refused word, or the text's length (1, and 3 for a bracket never closed); else 0.
   `*count` is how many words were passed: all of them, those before the refused one, or none where the text is too long.

   For word i that was passed, table[5 * i] to table[5 * i + 4] are its kind, its offset, the offset past it, the width of a literal in bits (else 0), and the
   index of the word past it, or past the list that it begins (the number of words passed, where no bracket closes it). values[i] is the value of a numeral or
   a literal (else 0). What is behind these entries stays as it was. Where `table_len / 5` or `values_len` is less than `words`, that is the limit. */
uint8_t sverdhyll_words(const uint8_t *text, size_t text_len, uint32_t bytes, uint32_t words, uint32_t nesting, uint32_t *table, size_t table_len,
                        uint64_t *values, size_t values_len, size_t *place, size_t *count);

/* Numbers of steps, for a small stack controller. */
enum {
    SVERDHYLL_PUSH_ARGUMENT = 1,
    SVERDHYLL_PUSH_CONSTANT = 2,
    SVERDHYLL_APPLY = 3,
    SVERDHYLL_STEP = 4,         /* how many numbers a step has */
    SVERDHYLL_MOST_VALUES = 256 /* how many values the stack holds */
};

/* Turns the body of an accepted response into steps for a stack controller, which sverdhyll_run describes. `function` is the number of the function, from 0 in
   the order of the script; `area` is lent, and `area_len` must be 1,024. Returns the answer's number, puts its sixteen numbers where `answer` points and the
   number of steps where `count` points (neither of which may be NULL). The answer is the first of these:

   | No.  | When                                                         | Text | Place              | Other numbers | Steps                |
   |------|--------------------------------------------------------------|------|--------------------|---------------|----------------------|
   | 17   | the area does not have 1,024 numbers                         | 3    | `area_len`         | 0             | 0                    |
   | 1-16 | sverdhyll_answer, with an area of its own, does not accept   | as sverdhyll_answer has them              | 0                    |
   |      | the response at these points within this budget              |                                           |                      |
   | 18   | the script has no such function, or its body uses a          | 3    | the number of the  | 0             | 0                    |
   |      | `define-fun`                                                 |      | function           |               |                      |
   | 0    | the list is written                                          | as sverdhyll_answer has them              | the nodes of the     |
   |      |                                                              |                                           | body, at most 256    |

   The list has four numbers a step, from area[0] on: operands in their order, the operator after them. area[4 * count] and what is behind it stay as they were
   lent; so does the whole area after any answer but 0. Run on arguments of the function's sorts, in their order, the list ends with the body's value alone on
   the stack, and never has more than 255 values on it. */
uint8_t sverdhyll_steps(const uint8_t *script, size_t script_len, const uint8_t *response, size_t response_len, const uint64_t *points, size_t points_len,
                        uint64_t budget, uint64_t function, uint64_t *area, size_t area_len, size_t *count, uint64_t answer[SVERDHYLL_ANSWER]);

/* Runs a list of steps, wherever it comes from, on arguments of the sorts given along: the stack controller, in libchecker.a and in a library of its own for
   those who build one.

   A sort is 0 for Bool, else a width from 1 to 64; sorts[k] is the sort of arguments[k], and a Bool is 0 or 1. There may be any number of arguments and of
   steps; the stack, which is empty at first, holds at most 256 values. `steps_len` is how many numbers there are, four for each step: 4 * count for a list of
   sverdhyll_steps. A step has four numbers:

   | First | Meaning       | Second                       | Third                            | Fourth               |
   |-------|---------------|------------------------------|----------------------------------|----------------------|
   |     1 | push argument | its number from 0            | 0                                | 0                    |
   |     2 | push constant | its value                    | its width, 0 for a Bool          | 0                    |
   |     3 | apply         | the operator's number from 0 | operand count; i of an `extract` | 0; j of an `extract` |

   The operators in the order of their numbers: `not and or xor => = distinct ite bvnot bvneg bvand bvor bvxor bvadd bvsub bvmul bvudiv bvurem bvshl bvlshr
   bvult concat`, `(_ extract i j)`, which is 22, `bvsdiv bvsrem bvsmod bvashr bvslt bvsle bvsgt bvsge bvule bvugt bvuge`, which is 33. An operator takes its
   operands from the stack, the newest last, and puts its value there.

   Returns 0 where the list ends with one value on the stack, and puts that value and its sort where `value` and `sort` point; `*place` is 0. Else it
   returns the number of the answer that refuses the list or the arguments, puts its place where `place` points, and `*value` and `*sort` are 0:

   20 where sorts and arguments differ in number, at the number of arguments; else at the first index that has no sort, or an argument that is no value of it.
   This is tested before the steps.

   19 at the first step, by its number from 0, that is malformed or cut short, finds too few or wrongly sorted operands, or would put a 257th value on the
   stack; at the number of steps where the list ends with no value or with more than one.

   None of `place`, `value` and `sort` may be NULL. */
uint8_t sverdhyll_run(const uint64_t *sorts, size_t sorts_len, const uint64_t *arguments, size_t arguments_len, const uint64_t *steps, size_t steps_len,
                      uint64_t *place, uint64_t *value, uint64_t *sort);

/* Sizes of an evidence file. */
enum {
    SVERDHYLL_BLOCK = 512,    /* bytes of a block */
    SVERDHYLL_PAYLOAD = 510,  /* bytes of payload in it, in front of the two of their sum */
    SVERDHYLL_MODULUS = 65521 /* what the sum is taken modulo */
};

/* Writes the evidence file of a script and a response to the front of a lent area: the two texts, and for each function a list of rules that derives its body.
   No points are taken, and nothing is evaluated: the constraints need not hold. Returns the answer's number, puts its sixteen numbers where `answer` points and
   the length of the file where `length` points (neither of which may be NULL). The answer is the first of these:

   | No.  | When                                                                     | Text | Place      | Other numbers            | Length         |
   |------|--------------------------------------------------------------------------|------|------------|--------------------------|----------------|
   | 1-12 | a text is refused                                                        | as sverdhyll_read has them                   | 0              |
   | 13   | the grammar of a function does not derive its body                       | as sverdhyll_answer has them                 | 0              |
   | 17   | the area is shorter than the file                                        | 3    | `area_len` | 0                        | 0              |
   | 0    | the file is written                                                      | 3    | 0          | 0, but for the weights   | a multiple of  |
   |      |                                                                          |      |            | of the lists, from       | 512, at most   |
   |      |                                                                          |      |            | answer[8] on             | 140,288        |

   An area of 140,288 bytes is never too short. area[*length] and what is behind it stay as they were lent; so does the whole area after any answer but 0. The
   list of a function is the least derivation, which sverdhyll_answer shows.

   The payload of the file is: the length of the script and of the response (4 bytes each), for each of eight functions how many rules its list has (2 bytes
   each; 0 for a function that the script does not have), the script, the response, the lists (2 bytes a rule), and zeros up to a multiple of 510 bytes. It is
   cut into blocks of 512 bytes: 510 of payload, then 2 that hold the sum of each byte times its position in the block, counted from 1, modulo 65,521. All
   these numbers have their low byte first. docs/EVIDENCE.md has a file worked by hand. */
uint8_t sverdhyll_write_evidence(const uint8_t *script, size_t script_len, const uint8_t *response, size_t response_len, uint8_t *area, size_t area_len,
                                 size_t *length, uint64_t answer[SVERDHYLL_ANSWER]);

/* Checks an evidence file, of any bytes, without a search: in libchecker.a, and in a library of its own for those who check only. Returns the answer's number,
   and puts its sixteen numbers where `answer` points (which may not be NULL). The answer is the first of these:

   | No.  | When                                                                     | Text | Place        | Other numbers                           |
   |------|--------------------------------------------------------------------------|------|--------------|-----------------------------------------|
   | 21   | a block is cut short, or does not hold its sum; an empty file is block 0 | 3    | the block    | 0                                       |
   |      | the lengths are past the file                                            | 3    | 0            | 0                                       |
   |      | zeros are missing behind the lists, or a block is spare                  | 3    | the block    | 0                                       |
   | 1-12 | a text that the file holds is refused                                    | as sverdhyll_read has them, in that text                       |
   | 22   | a list does not derive the body of its function, or uses a non-terminal  | 3    | the function | 0                                       |
   |      | twice at one place; or a function that the script does not have has one  |      |              |                                         |
   | 0    | else                                                                     | 3    | 0            | 0                                       |

   Blocks, functions and bytes count from 0. The first block that is wrong is named; so is the first function. Any list that derives the body will do, also one
   that is not the least. Whatever sverdhyll_write_evidence writes is accepted, and with any one byte changed it is refused by 21 at the block of that byte. */
uint8_t sverdhyll_check_evidence(const uint8_t *file, size_t file_len, uint64_t answer[SVERDHYLL_ANSWER]);

#ifdef __cplusplus
}
#endif

#endif
