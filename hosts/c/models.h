/* What hosts/c/try.c asks of models: the worked example of docs/FORMAT.md loaded, ordered, saved and laid on the tray,
 * and each refusal that models bring once. */
#ifndef MODELS_H
#define MODELS_H

#include "calls.h"
#include "lent.h"
#include "station.h"

static const char SEVEN[] = "HETATM    1  O   HOH A   7      -1.500   2.000   3.000  1.00  0.00           O";
static const char EIGHT[] = "HETATM    2  O   HOH A   8       9.000   2.000   3.000  1.00  0.00           O";

/* Adds a model: its MODEL line, one or two of the heterogens above or none, and its ENDMDL. */
static void add_model(text *t, const char *model, const char *first, const char *second)
{
    add(t, model);
    if (first) add(t, first);
    if (second) add(t, second);
    add(t, "ENDMDL");
}

/* Two models of two heterogens each, and a bond between these. */
static text two_models(void)
{
    text t = {{0}, 0};
    add(&t, "HEADER");
    add_model(&t, "MODEL        1", SEVEN, EIGHT);
    add_model(&t, "MODEL        2", SEVEN, EIGHT);
    add(&t, "CONECT    1    2");
    add(&t, "MASTER        0    0    0    0    0    0    0    0    2    0    1    0");
    add(&t, "END");
    return t;
}

static void model_checks(void)
{
    text t = two_models(), bare = {{0}, 0};
    check("two models", t.bytes, t.size, 0, 0, 12, 2, 0, 1);
    memcpy(t.bytes + 5 * LINE, "MODEL        3", 14);
    check("a model's number skipped", t.bytes, t.size, STATION_REFUSED_MODEL, 6, 5, 2, 0, 0);
    memcpy(t.bytes + 5 * LINE, "MODEL        0", 14);
    check("a model's number wrong", t.bytes, t.size, STATION_REFUSED_FIELD, 6, 5, 2, 0, 0);
    memcpy(t.bytes + 5 * LINE, t.bytes + 2 * LINE, LINE);
    check("a coordinate outside", t.bytes, t.size, STATION_REFUSED_PLACE, 6, 5, 2, 0, 0);
    t = two_models();
    memcpy(t.bytes + 6 * LINE, "ATOM  ", 6);
    memcpy(t.bytes + 7 * LINE, "ATOM  ", 6);
    check("a chain open at ENDMDL", t.bytes, t.size, STATION_REFUSED_RUN, 9, 8, 2, 0, 0);
    t = two_models();
    memcpy(t.bytes + 10 * LINE + 50, "    4", 5);
    check("MASTER with the coordinates of all models", t.bytes, t.size, STATION_REFUSED_COUNT, 11, 10, 2, 0, 1);
    t = two_models();
    memcpy(t.bytes + 7 * LINE + 12, t.bytes + 6 * LINE + 12, 15);
    check("the same atom twice in the second model", t.bytes, t.size, STATION_REFUSED_SAME_ATOM, 8, 7, 2, 0, 0);
    check("over within a model", t.bytes, 7 * LINE, STATION_REFUSED_OVER, 8, 7, 2, 0, 0);
    add(&bare, "HEADER");
    add_model(&bare, "MODEL        1", NULL, NULL);
    add_model(&bare, "MODEL        2", SEVEN, NULL);
    add(&bare, "MASTER        0    0    0    0    0    0    0    0    0    0    0    0");
    add(&bare, "END");
    check("an empty first model", bare.bytes, bare.size, 0, 0, 8, 0, 0, 0);
}

static void model_orders(void)
{
    text t = two_models(), saved = {{0}, 0}, tray = {{0}, 0}, both = {{0}, 0}, ends = {{0}, 0};
    station_slot is[4], other[4];
    uint64_t count = 0;
    lent table = lend(NULL, sizeof is, 0);
    uint32_t came = station_load((const uint8_t *)t.bytes, t.size, at(&table), 4, &count), i;
    memcpy(is, at(&table), sizeof is);
    for (i = 0; i < 4; i++) told(is[i].model == i / 2 + 1, "load: slot %u of model %u", i + 1, (unsigned)is[i].model);
    told(came == 0 && count == 4 && guarded(&table), "load: two models: %u, %llu slots", (unsigned)came,
         (unsigned long long)count);
    give_back(&table);

    add(&saved, "HEADER");
    add_model(&saved, "MODEL        1", EIGHT, NULL);
    add_model(&saved, "MODEL        2", SEVEN, EIGHT);
    add(&saved, "CONECT    1    2");
    add(&saved, "MASTER        0    0    0    0    0    0    0    0    1    0    1    0");
    add(&saved, "END");
    add_model(&tray, "MODEL        1", SEVEN, NULL);
    add_model(&tray, "MODEL        2", NULL, NULL);
    add_model(&both, "MODEL        1", SEVEN, NULL);
    add_model(&both, "MODEL        2", SEVEN, NULL);
    add(&both, "CONECT    1    2");
    add_model(&ends, "MODEL        1", NULL, NULL);
    add_model(&ends, "MODEL        2", NULL, NULL);

    write("tray: of models, nothing aside", station_tray, &t, is, 4, t.size, 0, &ends);
    order("a fragment of model 1 aside", &t, is, 4, 1, 1, 0, "1000");
    write("save: a bond stays by model 2", station_save, &t, is, 4, saved.size, 0, &saved);
    write("tray: into just enough, MODEL and ENDMDL with it", station_tray, &t, is, 4, tray.size, 0, &tray);
    write("tray: into a byte less, of models", station_tray, &t, is, 4, tray.size - 1, STATION_REFUSED_SHORT_OUTPUT,
          &tray);
    order("the same of model 2 aside", &t, is, 4, 3, 1, 0, "1010");
    write("tray: a bond that no model has the atom of", station_tray, &t, is, 4, t.size, 0, &both);
    memcpy(other, is, sizeof other);
    other[2].model = 1;
    order("a slot of another model", &t, other, 4, 1, 0, STATION_REFUSED_OTHER_TABLE, NULL);
    write("save: a slot of another model", station_save, &t, other, 4, t.size, STATION_REFUSED_OTHER_TABLE, &saved);
    memcpy(t.bytes + 5 * LINE, "MODEL        1", 14);
    order("a model's number repeated", &t, is, 4, 1, 0, STATION_REFUSED_MODEL, NULL);
}

static void model_lines(void)
{
    text t = two_models();
    static const char *names[6] = {"ATOM  ", "HETATM", "TER   ", "MODEL ", "ENDMDL", "END   "};
    size_t i;
    rewrite("MODEL", t.bytes + LINE, 80, 100, 0);
    rewrite("ENDMDL", t.bytes + 4 * LINE, 80, 100, 0);
    t.bytes[4 * LINE + 79] = '1';
    rewrite("ENDMDL and more", t.bytes + 4 * LINE, 80, 100, STATION_REFUSED_FIELD);
    memcpy(t.bytes + LINE + 10, "9999", 4);
    rewrite("MODEL 9999", t.bytes + LINE, 80, 80, 0);
    memcpy(t.bytes + LINE + 9, "10000", 5);
    rewrite("MODEL 10000", t.bytes + LINE, 80, 80, STATION_REFUSED_FIELD);
    for (i = 0; i < 6; i++) count(names[i], names[i], 1, 99999, 99999, 0);
    count("not past, HETATM", "HETATM", 0, 9, 10, 0);
    count("not past, full", "HETATM", 0, 99999, 99999, STATION_REFUSED_FULL);
    count("past, by 255", "HETATM", 255, 9, 9, 0);
    count("past, no name", "ATOMS ", 1, 9, 9, STATION_REFUSED_NAME);
    count("MODEL", "MODEL ", -1, 9, 9, 0);
    count("ENDMDL", "ENDMDL", -1, 9, 9, 0);
}

static void models(void)
{
    model_checks();
    model_orders();
    model_lines();
}

#endif
