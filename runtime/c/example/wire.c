#include "wire.h"

#include "board.h"
#include "node.h"

#define LINE 64U
#define ROOM 32U                        /* frames, and ends, of one tick */

static char line[LINE];
static board_frame frames[ROOM];
static board_end ends[ROOM];
static uint32_t frame_count;
static uint32_t end_count;
static uint32_t frames_taken;
static uint32_t ends_taken;

/* Reads a line. What is longer is cut. Answers false at the end of the wire. */
static bool read_line(void)
{
    uint32_t size = 0U;
    int character = wire_read();
    while ((character >= 0) && (character != '\n')) {
        if (size < (LINE - 1U)) {
            line[size] = (char)character;
            size++;
        }
        character = wire_read();
    }
    line[size] = '\0';
    return character >= 0;
}

/* The number of this place in the line, where 0 is the first; 0 where there is none. */
static uint32_t number_at(uint32_t place)
{
    uint32_t spaces = 0U;
    uint32_t number = 0U;
    for (uint32_t i = 0U; (i < LINE) && (line[i] != '\0'); i++) {
        if (line[i] == ' ') {
            spaces++;
        } else if ((spaces == (place + 1U)) && (line[i] >= '0') && (line[i] <= '9')) {
            number = (number * 10U) + (uint32_t)(line[i] - '0');
        } else {
            /* another word */
        }
    }
    return number;
}

static void note_frame(void)
{
    if (frame_count < ROOM) {
        frames[frame_count].item = (uint16_t)number_at(0U);
        frames[frame_count].column = (uint16_t)number_at(1U);
        frames[frame_count].value = (uint8_t)number_at(2U);
        frame_count++;
    }
}

static void note_end(void)
{
    if (end_count < ROOM) {
        ends[end_count].process = (uint16_t)number_at(0U);
        ends[end_count].faults = (uint16_t)number_at(1U);
        ends[end_count].value = (uint8_t)number_at(2U);
        end_count++;
    }
}

bool wire_wait(void)
{
    frame_count = 0U;
    end_count = 0U;
    frames_taken = 0U;
    ends_taken = 0U;
    while (read_line() && (line[0] != 's')) {
        if (line[0] == 't') {
            return true;
        }
        if (line[0] == 'w') {
            node_skip(number_at(0U));
        } else if (line[0] == 'f') {
            note_frame();
        } else if (line[0] == 'e') {
            note_end();
        } else {
            /* no line that a node knows */
        }
    }
    return false;
}

static void write_word(const char *word)
{
    for (uint32_t i = 0U; word[i] != '\0'; i++) {
        wire_write(word[i]);
    }
}

static void write_number(uint32_t number)
{
    char digits[10];
    uint32_t count = 0U;
    uint32_t left = number;
    do {
        digits[count] = (char)('0' + (int)(left % 10U));
        left /= 10U;
        count++;
    } while ((left > 0U) && (count < 10U));
    wire_write(' ');
    while (count > 0U) {
        count--;
        wire_write(digits[count]);
    }
}

void wire_done(void)
{
    write_word("done\n");
}

bool board_received(board_frame *frame)
{
    if (frames_taken >= frame_count) {
        return false;
    }
    *frame = frames[frames_taken];
    frames_taken++;
    return true;
}

bool board_finished(board_end *end)
{
    if (ends_taken >= end_count) {
        return false;
    }
    *end = ends[ends_taken];
    ends_taken++;
    return true;
}

void board_send(const board_frame *frame)
{
    write_word("send");
    write_number(frame->item);
    write_number(frame->column);
    write_number(frame->value);
    wire_write('\n');
}

void board_start(uint16_t process)
{
    write_word("start");
    write_number(process);
    wire_write('\n');
}

void board_strange(uint16_t item)
{
    write_word("strange");
    write_number(item);
    wire_write('\n');
}

void board_alarm(const cpg_event *event)
{
    write_word((event->kind == CPG_OVERRUN) ? "overrun" : "missing");
    write_number(event->item);
    if (event->kind == CPG_MISSING) {
        write_number(event->column);
    }
    wire_write('\n');
}
