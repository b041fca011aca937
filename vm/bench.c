/*
 * SPDX-License-Identifier: GPL-2.0-or-later
 *
 * A technician at the bench: each line of the control socket is a command, and its answer ends with an empty line.
 */
#include "card.h"

#define LONGEST_LINE 1024

void say(Card *card, const char *format, ...)
{
    va_list words;
    va_start(words, format);
    g_string_append_vprintf(card->said, format, words);
    va_end(words);
}

/* What was said goes to the bench, with an empty line behind it. */
void tell(Card *card)
{
    if (card->said->len > 0) {
        g_string_append_c(card->said, '\n');
        qemu_chr_fe_write_all(&card->control, (uint8_t *)card->said->str, card->said->len);
        g_string_truncate(card->said, 0);
    }
}

static void show_waiting(Card *card, const char *mechanism, const uint8_t *bits, size_t count)
{
    size_t waiting = 0;
    say(card, "waiting %s vectors:", mechanism);
    for (size_t v = 0; v < count; v++) {
        if (bits[v / 8] >> v % 8 & 1) {
            say(card, " %zu", v);
            waiting++;
        }
    }
    say(card, "%s\n", waiting == 0 ? " none" : "");
}

static void show(Card *card)
{
    say(card, "card of %u events and %zu MSI-X vectors: line %s, wire %s\n", card->events, card->vectors,
        card->bytes[0] & 1 ? "high" : "low", card->bytes[0] & 2 ? "active" : "inactive");
    show_waiting(card, "MSI", card->bytes + 5, 32);
    show_waiting(card, "MSI-X", card->pending, card->vectors);
    say(card, "%" PRIu64 " calls, %" PRIu64 " of them refused; %u events a second; ", card->calls, card->refused, card->rate);
    if (card->recording.log == NULL) {
        say(card, "not recorded\n");
    } else {
        say(card, "recorded as %s, part %u\n", card->name, card->recording.part);
    }
}

/* The end of an answer about a file: the file's error, the card's refusal, or what was done. */
static void say_of_file(Card *card, GError *error, uint8_t refusal, const char *done)
{
    char words[WORDS_BYTES];
    if (error != NULL) {
        say(card, "%s\n", error->message);
    } else {
        say(card, "%s\n", refusal == MUSGARENTO_ACCEPTED ? done : refused_words(words, refusal));
    }
}

static void save(Card *card, const char *name)
{
    g_autoptr(GError) error = NULL;
    uint8_t refusal = save_image(card);
    if (refusal == MUSGARENTO_ACCEPTED) {
        g_file_set_contents(name, (char *)card->image, card->image_len, &error);
    }
    g_autofree char *done = g_strdup_printf("an image of %u bytes", card->image_len);
    say_of_file(card, error, refusal, done);
}

static void restore(Card *card, const char *name)
{
    g_autoptr(GError) error = NULL;
    g_autofree char *image = NULL;
    gsize count;
    bool there = g_file_get_contents(name, &image, &count, &error);
    say_of_file(card, error, there ? take_image(card, image, count) : 0, "accepted");
}

static void withdraw(Card *card, uint64_t vector)
{
    char words[WORDS_BYTES];
    uint8_t was_set;
    uint8_t refusal = withdraw_vector(card, vector, &was_set);
    const char *done = was_set ? "was set" : "was not set";
    say(card, "withdraw %" PRIu64 ": %s\n", vector, refusal == MUSGARENTO_ACCEPTED ? done : refused_words(words, refusal));
    if (refusal == MUSGARENTO_ACCEPTED && card->recording.log != NULL) {
        say(card, "    recording goes on as %s-%u: a log has no record of a withdrawal\n", card->name, card->recording.part);
    }
}

static void command(Card *card, char *line)
{
    char *word = strchr(line, ' ');
    const char *name = line;
    guint64 n = 0;
    if (word != NULL) {
        *word++ = 0;
    }
    bool number = word != NULL && g_ascii_string_to_unsigned(word, 10, 0, UINT32_MAX, &n, NULL);
    if (g_str_equal(name, "event") && number) {
        raise_event(card, n);
    } else if (g_str_equal(name, "line") && number && n <= 1) {
        set_line(card, n);
    } else if (g_str_equal(name, "withdraw") && number) {
        withdraw(card, n);
    } else if (g_str_equal(name, "reset") && word == NULL) {
        reset_card(card);
    } else if (g_str_equal(name, "save") && word != NULL) {
        say(card, "save %s: ", word);
        save(card, word);
    } else if (g_str_equal(name, "restore") && word != NULL) {
        say(card, "restore %s: ", word);
        restore(card, word);
    } else if (g_str_equal(name, "rate") && number) {
        set_rate(card, n);
        say(card, "rate %u\n", card->rate);
    } else if (g_str_equal(name, "show") && word == NULL) {
        show(card);
    } else {
        say(card, "no command: %s%s%s; there are: event N, line 0, line 1, withdraw N, reset, save FILE, restore FILE, show, "
            "rate N, watch 0, watch 1\n", line, word == NULL ? "" : " ", word == NULL ? "" : word);
    }
}

/* A technician's call is always told; those of guest and timer after `watch 1`. */
static void take_line(Card *card, char *line)
{
    bool watched = card->watched;
    card->watched = true;
    if (strlen(line) >= LONGEST_LINE) {
        say(card, "no command: a line of %u bytes or more\n", LONGEST_LINE);
    } else if (g_str_equal(line, "watch 0") || g_str_equal(line, "watch 1")) {
        watched = line[6] == '1';
        say(card, "%s\n", line);
    } else {
        command(card, line);
    }
    card->watched = watched;
    tell(card);
}

static int control_room(void *opaque)
{
    return LONGEST_LINE;
}

static void control_take(void *opaque, const uint8_t *bytes, int count)
{
    Card *card = opaque;
    for (int i = 0; i < count; i++) {
        if (bytes[i] == '\n') {
            take_line(card, g_strchomp(card->line->str));
            g_string_truncate(card->line, 0);
        } else if (card->line->len < LONGEST_LINE) {
            g_string_append_c(card->line, bytes[i] != 0 ? bytes[i] : '?');
        }
    }
}

void bench_open(Card *card)
{
    card->line = g_string_new(NULL);
    card->said = g_string_new(NULL);
    qemu_chr_fe_set_handlers(&card->control, control_room, control_take, NULL, NULL, card, NULL, true);
}
