/* What is measured: each subject's inputs, and its work by the library and by plain C. */
#ifndef SUBJECTS_H
#define SUBJECTS_H

#include "measure.h"

#include <stdint.h>

/* Numbers that look random and are the same in every run. */
uint32_t some_number(void);
void some_bytes(uint8_t *bytes, size_t count);

/* Room for `count` bytes that begins at a place of a page. */
uint8_t *room_at(size_t place, size_t count);

void crc_prepare(const subject *s, size_t size);
void crc16_library(const subject *s);
void crc16_plain(const subject *s);
void crc32_library(const subject *s);
void crc32_plain(const subject *s);
int crc_same(void);

void slot_prepare(const subject *s, size_t size);
void slot_library(const subject *s);
void slot_plain(const subject *s);
int slot_same(void);

void version_prepare(const subject *s, size_t size);
void version_library(const subject *s);
void version_plain(const subject *s);
int version_same(void);

/* Of the versions that version_prepare has made. */
void tray_library(const subject *s);
void tray_plain(const subject *s);
int tray_same(void);

void session_prepare(const subject *s, size_t size);
void session_library(const subject *s);
void session_plain(const subject *s);
int session_same(void);

void host_prepare(const subject *s, size_t size);
void host_library(const subject *s);
void host_plain(const subject *s);
int host_same(void);

void replay_prepare(const subject *s, size_t size);
void replay_library(const subject *s);
void replay_plain(const subject *s);
int replay_same(void);

#endif
