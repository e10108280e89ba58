/* Match files, pictures, pages, identifiers and reports, as a program in C gets them. */
#include "bg_relay.h"
#include "checks.h"

#include <stdlib.h>
#include <string.h>

#define BYTES(text) (const uint8_t *)(text), sizeof(text) - 1

enum { ROOM = 1 << 16 };

static const char SEVEN[] = "length 7\nopen 3 1\n";
static const char MOVED[] = "length 1\nopen 3 1\nX move 8-5 6-5\n";
static const char FILE_OF_IT[] = "; [Site \"somewhere\"]\n 1 point match\n\n Game 1\n Ada : 0   Zoe : 0\n 1) 31: 8/5 6/5\n";

static uint8_t out[ROOM], again[ROOM];
static size_t needed, length;

/* Checks that a text begins and ends so, and has these words somewhere. */
static void check_parts(const char *front, const char *middle, const char *end, const char *what) {
    static char text[ROOM + 1];
    size_t last = strlen(end);
    memcpy(text, out, needed);
    text[needed] = 0;
    check(strncmp(text, front, strlen(front)) == 0, what);
    check(strstr(text, middle) != NULL, what);
    check(needed >= last && strcmp(text + needed - last, end) == 0, what);
}

static void check_match_files(void) {
    bg_verdict verdict = {9, 9, {9, 9}};
    check_status(bg_mat_import(1, BYTES(FILE_OF_IT), &verdict, out, ROOM, &needed), BG_OK, "an import");
    check_text(out, needed, MOVED, "the transcript of a match file");
    check(verdict.kind == 0 && verdict.number == 2 && verdict.reserved[0] == 0, "the verdict on it");
    check_status(bg_mat_export(out, needed, again, ROOM, &length), BG_OK, "an export");
    check_status(bg_mat_import(1, again, length, &verdict, out, ROOM, &needed), BG_OK, "what was exported");
    check_text(out, needed, MOVED, "the transcript of what was exported");
    check_status(bg_mat_import(2, BYTES(FILE_OF_IT), &verdict, out, ROOM, &needed), BG_OK, "by the second rules");
    check_text(out, needed, "length 1 rules 2\nopen 3 1\nX move 8-5 6-5\n", "the transcript by the second rules");
    check_status(bg_mat_import(1, BYTES("0 point match\n"), &verdict, out, ROOM, &needed), BG_REFUSED, "a money game");
    check(verdict.kind == 1 && verdict.number == 1, "the line that is refused");
    check_status(bg_mat_import(1, NULL, 0, &verdict, out, ROOM, &needed), BG_REFUSED, "no match file");
    check_status(bg_mat_import(0, BYTES(FILE_OF_IT), &verdict, out, ROOM, &needed), BG_BAD_ARGUMENT, "no rules");
    check_status(bg_mat_export(NULL, 0, out, ROOM, &needed), BG_REFUSED, "no transcript");
}

static void check_drawings(void) {
    check_status(bg_picture(BYTES(SEVEN), BG_NUMBERING_X, out, ROOM, &needed), BG_OK, "a picture");
    check_parts("<svg ", "<title>X to move 3 1</title>", "</svg>\n", "a picture of the opening");
    check_status(bg_picture(BYTES(SEVEN), 2, out, ROOM, &needed), BG_BAD_ARGUMENT, "no such numbering");
    check_status(bg_page(BYTES(MOVED), BYTES("Ada & Zoe"), BYTES("Ada"), NULL, 0, BG_NUMBERING_MOVER, 5, out, ROOM,
                         &needed),
                 BG_OK, "a page");
    check_parts("<!DOCTYPE html>", "<title>Ada &amp; Zoe</title>", "</html>\n", "a page of a match");
    check_status(bg_page(BYTES(MOVED), BYTES("\xff"), NULL, 0, NULL, 0, 0, 0, out, ROOM, &needed), BG_BAD_ARGUMENT,
                 "a title that is no text");
    check_status(bg_page(BYTES(MOVED), NULL, 0, NULL, 0, NULL, 0, 0, 65536, out, ROOM, &needed), BG_BAD_ARGUMENT,
                 "too many seconds");
}

static void check_ids(void) {
    check_status(bg_position_id(BYTES(SEVEN), out, ROOM, &needed), BG_OK, "a Position ID");
    check_text(out, needed, "4HPwATDgc/ABMA", "the Position ID of the opening");
    check_status(bg_match_id(BYTES(SEVEN), out, ROOM, &needed), BG_OK, "a Match ID");
    check_text(out, needed, "cInlAAAAAAAE", "the Match ID of the opening");
    check_status(bg_xgid(BYTES(SEVEN), out, ROOM, &needed), BG_OK, "an XGID");
    check_text(out, needed, "XGID=-b----E-C---eE---c-e----B-:0:0:1:31:0:0:0:7:7", "the XGID of the opening");
    check_status(bg_xgid(BYTES("length 7\n"), out, ROOM, &needed), BG_NO_XGID, "an XGID before the opening");
    check_status(bg_position_id(BYTES("length 0\n"), out, ROOM, &needed), BG_REFUSED, "no transcript");
    check_status(bg_xgid(BYTES(SEVEN), out, 8, &needed), BG_NO_ROOM, "an XGID that does not fit");
    check_number(needed, 50, "the bytes that it needs");
}

static void check_reports(void) {
    bg_verdict verdict = {9, 9, {9, 9}};
    check_status(bg_check(BYTES("a.txt"), BYTES(MOVED), 0, &verdict, out, ROOM, &needed), BG_OK, "a report");
    check_text(out, needed, "a.txt: ok 2, not over\n", "the report on a transcript");
    check_status(bg_check(BYTES("a"), BYTES(FILE_OF_IT), 0, &verdict, out, ROOM, &needed), BG_OK, "a report");
    check_text(out, needed, "a: ok 2, cut within a game\n", "the report on a match file");
    check_status(bg_check(BYTES("a"), BYTES("length 1\nopen 3 3\n"), 0, &verdict, out, ROOM, &needed), BG_OK, "a report");
    check_text(out, needed, "a: refused at line 2: equal opening: open 3 3\n", "the report on a refused transcript");
    check(verdict.kind == 1 && verdict.number == 2, "its verdict");
    check_status(bg_check(BYTES("\xff"), BYTES(MOVED), 0, &verdict, out, ROOM, &needed), BG_BAD_ARGUMENT,
                 "a name that is no text");
}

int main(void) {
    check_match_files();
    check_drawings();
    check_ids();
    check_reports();
    return checked();
}
