/* GLib's reader of gvdb files, as few calls as the bench makes of it. Compiled by bench/run with gvdb-reader.c, which is not a part of this repository. */
#include "gvdb-reader.h"

/* A table over bytes that stay where they are. */
GvdbTable *reader_open(const guint8 *file, gsize length)
{
    GBytes *bytes = g_bytes_new_static(file, length);
    GvdbTable *table = gvdb_table_new_from_bytes(bytes, TRUE, NULL);
    g_bytes_unref(bytes);
    return table;
}

/* Whether a key, with a 0 behind it, leads to a value whose pointer is good. */
gboolean reader_has(GvdbTable *table, const gchar *key)
{
    return gvdb_table_has_value(table, key);
}

/* Lists all keys, and answers how many there are. */
gsize reader_list(GvdbTable *table)
{
    gsize count;
    g_strfreev(gvdb_table_get_names(table, &count));
    return count;
}
