/* The commands. Each does its work and gives the exit status; what went wrong has been told by then. */
#ifndef COMMANDS_H
#define COMMANDS_H

#include <stdint.h>

#include "arguments.h"

/* "1.0" or "1.10". */
const char *edition_text(uint32_t edition);

int run_format(const struct arguments *arguments);
int run_info(const struct arguments *arguments);
int run_check(const struct arguments *arguments);
int run_ls(const struct arguments *arguments);
int run_cat(const struct arguments *arguments);
int run_put(const struct arguments *arguments);
int run_mkdir(const struct arguments *arguments);
int run_rm(const struct arguments *arguments);
int run_restore(const struct arguments *arguments);
int run_reclaim(const struct arguments *arguments);
int run_report(const struct arguments *arguments);

#endif
