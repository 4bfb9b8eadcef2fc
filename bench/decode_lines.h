// What the programs beside `mrpc decode` share: the header of a frame, and its line.
#pragma once
#include "peer_table.h"

#include <charconv>

// The big-endian number of so many bytes at a place.
static uint32_t big(const std::string& bytes, size_t at, int count) {
  uint32_t number = 0;
  for (int i = 0; i < count; i++) number = number << 8 | static_cast<unsigned char>(bytes[at + i]);
  return number;
}

// The header of a frame.
struct Head {
  uint32_t length, kind, method, conn, number;
};

// The header at a place, which is then that of the payload.
static Head read_head(const std::string& input, size_t& at, size_t methods) {
  if (input.size() - at < 16) fault("a frame is cut");
  const Head head = {big(input, at, 4), big(input, at + 4, 1), big(input, at + 6, 2), big(input, at + 8, 4),
                     big(input, at + 12, 4)};
  at += 16;
  if (input.size() - at < head.length) fault("a frame is cut");
  if (head.kind < 1 || head.kind > 2 || head.method >= methods) fault("a frame's header");
  return head;
}

// The first words of a frame's line.
static void append_head(std::string& out, const Head& head) {
  out += "frame ";
  for (uint32_t word : {head.kind, head.method, head.conn, head.number}) {
    char digits[10];
    out.append(digits, std::to_chars(digits, digits + sizeof digits, word).ptr);
    out += ' ';
  }
}

// Lower-case hexadecimal digits, or `-` where there is no byte.
static void append_hex(std::string& out, const char* bytes, size_t count) {
  static const char digits[] = "0123456789abcdef";
  if (count == 0) out += '-';
  const size_t before = out.size();
  out.resize(before + 2 * count);
  char* digit = &out[before];
  for (size_t i = 0; i < count; i++) {
    *digit++ = digits[static_cast<unsigned char>(bytes[i]) >> 4];
    *digit++ = digits[bytes[i] & 15];
  }
}
