/* A stand-in for a Verilog simulator, for a module of VPI: vpi MODULE. It loads the module, tells how many calls that registers, and makes
 * one for each line of its input, as `$call 1 2 "text"`; what a function answers and what is printed goes to its output. */
#include "vpi.h"

#include <dlfcn.h>
#include <stdarg.h>
#include <stdio.h>
#include <stdlib.h>
#include <string.h>

enum { MOST = 64, ARGUMENTS = 8 };

static s_vpi_systf_data calls[MOST];
static int count, given, asked;
static char *words[ARGUMENTS];
static PLI_UINT32 handles[ARGUMENTS + 1];

vpiHandle vpi_register_systf(s_vpi_systf_data *told) {
    calls[count++] = *told;
    return NULL;
}

vpiHandle vpi_handle(PLI_INT32 type, vpiHandle of) {
    (void)of;
    return type == vpiSysTfCall ? &handles[ARGUMENTS] : NULL;
}

vpiHandle vpi_iterate(PLI_INT32 type, vpiHandle of) {
    asked = 0;
    return type == vpiArgument && of == &handles[ARGUMENTS] && given > 0 ? of : NULL;
}

vpiHandle vpi_scan(vpiHandle them) {
    (void)them;
    return asked < given ? &handles[asked++] : NULL;
}

void vpi_get_value(vpiHandle of, s_vpi_value *to) {
    char *word = words[of - handles];
    if (to->format == vpiIntVal) to->value.integer = (PLI_INT32)strtol(word, NULL, 10);
    if (to->format == vpiStringVal) to->value.str = word;
}

vpiHandle vpi_put_value(vpiHandle of, s_vpi_value *value, void *when, PLI_INT32 how) {
    (void)of, (void)when, (void)how;
    printf("%d\n", value->value.integer);
    return NULL;
}

PLI_INT32 vpi_printf(const PLI_BYTE8 *format, ...) {
    va_list more;
    va_start(more, format);
    int printed = vprintf(format, more);
    va_end(more);
    return printed;
}

PLI_INT32 vpi_control(PLI_INT32 order, ...) {
    if (order == vpiFinish) exit(1);
    return 0;
}

static void make(char *line) {
    char *name = strtok(line, " \n"), *word;
    given = 0;
    while (name != NULL && given < ARGUMENTS && (word = strtok(NULL, " \n")) != NULL) {
        size_t length = strlen(word);
        if (*word == '"') word[length - 1] = 0, word++;
        words[given++] = word;
    }
    for (int n = 0; name != NULL && n < count; n++) {
        if (strcmp(calls[n].tfname, name) == 0 && calls[n].compiletf(calls[n].user_data) == 0) calls[n].calltf(calls[n].user_data);
    }
}

int main(int many, char **path) {
    void *module = many == 2 ? dlopen(path[1], RTLD_NOW) : NULL;
    void (**begin)(void) = module == NULL ? NULL : dlsym(module, "vlog_startup_routines");
    if (begin == NULL) return fprintf(stderr, "%s\n", dlerror()), 2;
    for (; *begin != NULL; begin++) (*begin)();
    printf("%d calls\n", count);
    static char line[4096];
    while (fgets(line, sizeof line, stdin) != NULL) make(line);
    return 0;
}
