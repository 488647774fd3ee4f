/* What bson_recast and bson_migrate do for some workloads, written over libbson, by iterators over the input and appends to a new document. It is
   measured beside the programs; nothing is built from it. Its argument is the workload:

   rows      {rows:[{n:u32,name:string}]}: n is written as an Int64
   extended  {items:[{_id:oid,at:datetime,user:uuid,tags:[string],n:i64,price:decimal}]}
   file      a file of documents, each {_id:oid,name:string,tags:[string],created:datetime,address:?{city:string}} */
#include <bson/bson.h>
#include <stdio.h>
#include <stdlib.h>
#include <string.h>

typedef bool put_item_t (bson_iter_t *item, bson_t *into, const char *index);

static uint8_t *read_all (size_t *length)
{
   size_t room = 1 << 16;
   uint8_t *bytes = malloc (room);
   *length = 0;
   for (size_t n; (n = fread (bytes + *length, 1, room - *length, stdin)) > 0;) {
      *length += n;
      if (*length == room) bytes = realloc (bytes, room *= 2);
   }
   return bytes;
}

static bool put_row (bson_iter_t *row, bson_t *into, const char *index)
{
   bson_iter_t field;
   bson_t out;
   int64_t n = 0;
   const char *name = NULL;
   uint32_t name_length = 0;
   if (!BSON_ITER_HOLDS_DOCUMENT (row) || !bson_iter_recurse (row, &field)) return false;
   while (bson_iter_next (&field)) {
      const char *key = bson_iter_key (&field);
      if (strcmp (key, "n") == 0 && BSON_ITER_HOLDS_INT32 (&field)) n = bson_iter_int32 (&field);
      else if (strcmp (key, "name") == 0 && BSON_ITER_HOLDS_UTF8 (&field)) name = bson_iter_utf8 (&field, &name_length);
   }
   if (name == NULL || !bson_utf8_validate (name, name_length, true)) return false;
   bson_append_document_begin (into, index, -1, &out);
   bson_append_int64 (&out, "n", 1, n);
   bson_append_utf8 (&out, "name", 4, name, (int) name_length);
   bson_append_document_end (into, &out);
   return true;
}

static bool put_tags (bson_iter_t *tag, bson_t *into)
{
   bson_t out;
   uint32_t i = 0;
   char buffer[16];
   const char *index;
   bson_append_array_begin (into, "tags", 4, &out);
   while (bson_iter_next (tag)) {
      uint32_t length = 0;
      if (!BSON_ITER_HOLDS_UTF8 (tag)) return false;
      const char *text = bson_iter_utf8 (tag, &length);
      if (!bson_utf8_validate (text, length, true)) return false;
      size_t digits = bson_uint32_to_string (i++, &index, buffer, sizeof buffer);
      bson_append_utf8 (&out, index, (int) digits, text, (int) length);
   }
   bson_append_array_end (into, &out);
   return true;
}

static bool put_extended (bson_iter_t *item, bson_t *into, const char *index)
{
   bson_iter_t field, tags;
   bson_t out;
   const bson_oid_t *id = NULL;
   const uint8_t *user = NULL;
   bson_decimal128_t price;
   int64_t at = 0, n = 0;
   unsigned found = 0;
   if (!BSON_ITER_HOLDS_DOCUMENT (item) || !bson_iter_recurse (item, &field)) return false;
   while (bson_iter_next (&field)) {
      const char *key = bson_iter_key (&field);
      if (strcmp (key, "_id") == 0 && BSON_ITER_HOLDS_OID (&field)) {
         id = bson_iter_oid (&field);
         found |= 1;
      } else if (strcmp (key, "at") == 0 && BSON_ITER_HOLDS_DATE_TIME (&field)) {
         at = bson_iter_date_time (&field);
         found |= 2;
      } else if (strcmp (key, "user") == 0 && BSON_ITER_HOLDS_BINARY (&field)) {
         bson_subtype_t subtype;
         uint32_t length;
         bson_iter_binary (&field, &subtype, &length, &user);
         if (subtype != BSON_SUBTYPE_UUID || length != 16) return false;
         found |= 4;
      } else if (strcmp (key, "tags") == 0 && BSON_ITER_HOLDS_ARRAY (&field)) {
         if (!bson_iter_recurse (&field, &tags)) return false;
         found |= 8;
      } else if (strcmp (key, "n") == 0 && (BSON_ITER_HOLDS_INT64 (&field) || BSON_ITER_HOLDS_INT32 (&field))) {
         n = bson_iter_as_int64 (&field);
         found |= 16;
      } else if (strcmp (key, "price") == 0 && BSON_ITER_HOLDS_DECIMAL128 (&field)) {
         if (!bson_iter_decimal128 (&field, &price)) return false;
         found |= 32;
      }
   }
   if (found != 63) return false;
   bson_append_document_begin (into, index, -1, &out);
   bson_append_oid (&out, "_id", 3, id);
   bson_append_date_time (&out, "at", 2, at);
   bson_append_binary (&out, "user", 4, BSON_SUBTYPE_UUID, user, 16);
   if (!put_tags (&tags, &out)) return false;
   bson_append_int64 (&out, "n", 1, n);
   bson_append_decimal128 (&out, "price", 5, &price);
   bson_append_document_end (into, &out);
   return true;
}

static bool put_person (bson_iter_t *field, bson_t *out)
{
   bson_iter_t tags, inner;
   bson_t address;
   const bson_oid_t *id = NULL;
   const char *name = NULL, *city = NULL;
   uint32_t name_length = 0, city_length = 0;
   int64_t created = 0;
   unsigned found = 0;
   while (bson_iter_next (field)) {
      const char *key = bson_iter_key (field);
      if (strcmp (key, "_id") == 0 && BSON_ITER_HOLDS_OID (field)) {
         id = bson_iter_oid (field);
         found |= 1;
      } else if (strcmp (key, "name") == 0 && BSON_ITER_HOLDS_UTF8 (field)) {
         name = bson_iter_utf8 (field, &name_length);
         if (!bson_utf8_validate (name, name_length, true)) return false;
         found |= 2;
      } else if (strcmp (key, "tags") == 0 && BSON_ITER_HOLDS_ARRAY (field)) {
         if (!bson_iter_recurse (field, &tags)) return false;
         found |= 4;
      } else if (strcmp (key, "created") == 0 && BSON_ITER_HOLDS_DATE_TIME (field)) {
         created = bson_iter_date_time (field);
         found |= 8;
      } else if (strcmp (key, "address") == 0 && BSON_ITER_HOLDS_DOCUMENT (field)) {
         if (!bson_iter_recurse (field, &inner)) return false;
         while (bson_iter_next (&inner)) {
            if (strcmp (bson_iter_key (&inner), "city") == 0 && BSON_ITER_HOLDS_UTF8 (&inner)) city = bson_iter_utf8 (&inner, &city_length);
         }
         if (city == NULL || !bson_utf8_validate (city, city_length, true)) return false;
      }
   }
   if (found != 15) return false;
   bson_append_oid (out, "_id", 3, id);
   bson_append_utf8 (out, "name", 4, name, (int) name_length);
   if (!put_tags (&tags, out)) return false;
   bson_append_date_time (out, "created", 7, created);
   if (city == NULL) return bson_append_null (out, "address", 7);
   bson_append_document_begin (out, "address", 7, &address);
   bson_append_utf8 (&address, "city", 4, city, (int) city_length);
   bson_append_document_end (out, &address);
   return true;
}

/* The documents of a file one by one: each is written before the next is read. */
static int put_file (const uint8_t *bytes, size_t length)
{
   bson_t out = BSON_INITIALIZER;
   for (size_t place = 0; place < length;) {
      bson_t in;
      bson_iter_t field;
      uint32_t announced;
      if (length - place < 5) return 1;
      memcpy (&announced, bytes + place, 4);
      if (announced > length - place || !bson_init_static (&in, bytes + place, announced)) return 1;
      bson_reinit (&out);
      if (!bson_iter_init (&field, &in) || !put_person (&field, &out)) return 1;
      fwrite (bson_get_data (&out), 1, out.len, stdout);
      place += announced;
   }
   return 0;
}

static bool put_items (bson_iter_t *item, bson_t *into, const char *key, put_item_t *put_item)
{
   bson_t out;
   uint32_t i = 0;
   char buffer[16];
   const char *index;
   bson_append_array_begin (into, key, -1, &out);
   while (bson_iter_next (item)) {
      bson_uint32_to_string (i++, &index, buffer, sizeof buffer);
      if (!put_item (item, &out, index)) return false;
   }
   bson_append_array_end (into, &out);
   return true;
}

int main (int count, char **words)
{
   size_t length;
   uint8_t *bytes = read_all (&length);
   bson_t in, out = BSON_INITIALIZER;
   bson_iter_t top, item;
   bool is_rows = count == 2 && strcmp (words[1], "rows") == 0;
   const char *name = is_rows ? "rows" : "items";
   if (count == 2 && strcmp (words[1], "file") == 0) return put_file (bytes, length);
   if (!bson_init_static (&in, bytes, length)) return 1;
   bson_iter_init (&top, &in);
   while (bson_iter_next (&top)) {
      if (strcmp (bson_iter_key (&top), name) != 0 || !bson_iter_recurse (&top, &item)) continue;
      if (!put_items (&item, &out, name, is_rows ? put_row : put_extended)) return 1;
   }
   fwrite (bson_get_data (&out), 1, out.len, stdout);
   return 0;
}
