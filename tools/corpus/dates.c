// Days and times: from a date to a number of days and back, weekdays, Easter, the moon, a calendar's page, durations.
#define TEXT_SIZE 256
#include "pack.h"

// call days 2024 2 29
// call date 19782
// call weekday 1969 7 20
// call easter 2025
// call easters 2024 4
// call moon 2024 12 15
// call stamp 1700000000
// call duration 987654
// call friday 2026
// call week 2027 1 3
// call valid 2023 2 29
// call page 2023 13
// call page 2023 2
// call text_size
// call easters 1990 30
// call page 2024 2

static int is_leap(int year) { return year % 4 == 0 && (year % 100 != 0 || year % 400 == 0); }

static int length_of(int year, int month) {
  static const byte lengths[12] = {31, 28, 31, 30, 31, 30, 31, 31, 30, 31, 30, 31};
  REQUIRE(month >= 1 && month <= 12);
  return lengths[month - 1] + (month == 2 && is_leap(year));
}

EXPORT(valid) int valid(int year, int month, int day) {
  return month >= 1 && month <= 12 && day >= 1 && day <= length_of(year, month);
}

// Since the first day of 1970, by years that begin in March.
EXPORT(days) int days(int year, int month, int day) {
  year -= month <= 2;
  int era = (year >= 0 ? year : year - 399) / 400, of_era = year - era * 400;
  int of_year = (153 * (month + (month > 2 ? -3 : 9)) + 2) / 5 + day - 1;
  return era * 146097 + of_era * 365 + of_era / 4 - of_era / 100 + of_year - 719468;
}

EXPORT(date) int date(int day) {
  day += 719468;
  int era = (day >= 0 ? day : day - 146096) / 146097, of_era = day - era * 146097;
  int year = (of_era - of_era / 1460 + of_era / 36524 - of_era / 146096) / 365;
  int of_year = of_era - (365 * year + year / 4 - year / 100), part = (5 * of_year + 2) / 153;
  int month = part < 10 ? part + 3 : part - 9;
  return (year + era * 400 + (month <= 2)) * 10000 + month * 100 + of_year - (153 * part + 2) / 5 + 1;
}

EXPORT(weekday) int weekday(int year, int month, int day) { return ((days(year, month, day) + 4) % 7 + 7) % 7; }

EXPORT(easter) int easter(int year) {
  int golden = year % 19, century = year / 100, rest = year % 100;
  int epact = (19 * golden + century - century / 4 - (century - (century + 8) / 25 + 1) / 3 + 15) % 30;
  int shift = (32 + 2 * (century % 4) + 2 * (rest / 4) - epact - rest % 4) % 7;
  int month = (golden + 11 * epact + 22 * shift) / 451, day = epact + shift - 7 * month + 114;
  return day / 31 * 100 + day % 31 + 1;
}

EXPORT(easters) int easters(int year, int count) {
  int earliest = 9999;
  for (; count > 0; count--, year++) {
    int found = easter(year);
    if (found < earliest) earliest = found;
  }
  return earliest;
}

// The moon's age in hundredths of a day.
EXPORT(moon) int moon(int year, int month, int day) {
  return ((days(year, month, day) - 10962) * 100 % 2953 + 2953) % 2953;
}

static void put_two(int value) {
  put((char)(value < 10 ? ' ' : '0' + value / 10));
  put((char)('0' + value % 10));
}

EXPORT(page) unsigned page(int year, int month) {
  int first = weekday(year, month, 1), last = length_of(year, month);
  text_length = 0;
  for (int i = 0; i < first; i++) put_text("   ");
  for (int day = 1; day <= last; day++) {
    put_two(day);
    put((first + day) % 7 ? ' ' : '\n');
  }
  return text_length;
}

EXPORT(stamp) int stamp(long long seconds) {
  int day = (int)(seconds / 86400), rest = (int)(seconds - day * 43200ll - day * 43200ll);
  text_length = 0;
  put_int(date(day));
  put(' ');
  put_int(rest / 3600);
  put(':');
  put_int(rest / 60 % 60);
  return rest;
}

EXPORT(duration) unsigned duration(unsigned seconds) {
  static const unsigned units[4] = {86400, 3600, 60, 1};
  static const char names[] = "dhms";
  text_length = 0;
  for (int i = 0; i < 4; i++) {
    if (seconds < units[i]) continue;
    put_unsigned(seconds / units[i]);
    put(names[i]);
    seconds %= units[i];
  }
  return text_length;
}

// How many thirteenth days of a year's months are a Friday.
EXPORT(friday) int friday(int year) {
  int count = 0;
  for (int month = 1; month <= 12; month++) count += weekday(year, month, 13) == 5;
  return count;
}

// The week's number, whose first one has the year's first Thursday.
EXPORT(week) int week(int year, int month, int day) {
  int thursday = days(year, month, day) + 3 - (weekday(year, month, day) + 6) % 7, of = date(thursday) / 10000;
  return (thursday - days(of, 1, 1)) / 7 + 1;
}
