/* SPDX-License-Identifier: MIT OR Apache-2.0 */
/* The calls of units.h that are C and not proved, since an export of Rattle takes no null pointer and returns no text.
   tools/c_library.sh links them with the proved crate units_c, whose own units_close it renames to units_close_table. */
#include "units.h"

uint32_t units_close_table(units_table *table);

uint32_t units_close(units_table *table) { return table == NULL ? UNITS_CLOSED : units_close_table(table); }

static const char version[] = UNITS_VERSION;

const char *units_version(void) { return version; }

uint32_t units_version_number(void) { return UNITS_VERSION_NUMBER; }
