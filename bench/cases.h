/* Expressions, names and readings that several programs of the bench use. The readings were derived by hand. */
#ifndef CASES_H
#define CASES_H

/* A string several times over. */
#define FIVE(string) string string string string string
#define TEN(string) FIVE(string) FIVE(string)
#define FIFTEEN(string) TEN(string) FIVE(string)
#define HUNDRED(string) TEN(TEN(string))
#define TIMES_254(string) HUNDRED(string) HUNDRED(string) FIVE(TEN(string)) string string string string

/* Exposure names: block, strip, camera, flight and exposure, by expressions of 30, 59 and 119 leaves. All words of
   these expressions have 16 bytes. The whole name has one reading; the dropped one, without the camera's last digit,
   none. */
#define DIGIT "(0|1|2|3|4|5|6|7|8|9)"

/* A to E are 1 to 5, 3S07C 6 to 10, L and R 11 and 12, 28F21E04 13 to 20, the last digit 21 to 30. */
#define EXPOSURE_30 "(A|B|C|D|E)3S07C(L|R)28F21E04" DIGIT
#define WHOLE_30 "B3S07CR28F21E045"
#define DROPPED_30 "B3S07CR2F21E045"
#define READING_30 2, 6, 7, 8, 9, 10, 12, 13, 14, 15, 16, 17, 18, 19, 20, 26

/* A to E are 1 to 5, the block's digits 6 to 15, S07C 16 to 19, K to N 20 to 23, 28F21E 24 to 29, and the digits of the
   exposure begin at 30, 40 and 50. */
#define EXPOSURE_59 "(A|B|C|D|E)" DIGIT "S07C(K|L|M|N)28F21E" DIGIT DIGIT DIGIT
#define WHOLE_59 "B3S07CM28F21E045"
#define DROPPED_59 "B3S07CM2F21E045"
#define READING_59 2, 9, 16, 17, 18, 19, 22, 24, 25, 26, 27, 28, 29, 30, 44, 55

/* A to E are 1 to 5, the block's digits 6 to 15, S 16, and so on by tens. */
#define EXPOSURE_119 "(A|B|C|D|E)" DIGIT "S" DIGIT DIGIT "C" DIGIT DIGIT DIGIT "F" DIGIT DIGIT "E" DIGIT DIGIT DIGIT
#define WHOLE_119 "B3S07C128F21E045"
#define DROPPED_119 "B3S07C12F21E045"
#define READING_119 2, 9, 16, 17, 34, 37, 39, 50, 66, 68, 71, 80, 89, 90, 104, 115

/* A starred union of as many leaves as there may be: 120, all of them `a`. */
#define DENSE "(a" HUNDRED("|a") FIFTEEN("|a") "|a|a|a|a)*"
#define DENSE_SHOWN "(a|..120 times..|a)*"

/* A union of 64 leaves under 128 stars: all 255 nodes, and every star links every leaf to every leaf once more. */
#define STARRY "(a" FIVE(TEN("|a")) TEN("|a") "|a|a|a)" HUNDRED("*") TEN("**") FIVE("*") "***"

/* The longest name, 255 bytes. */
#define LONGEST TIMES_254("a") "a"

#endif
