// What the tests of tables from C++ share.
#pragma once
#include "jadvolni.hpp"

// Cells between commas.
static jadvolni::table commas(bool has_quotes = false)
{
    jadvolni::table how{};
    how.separator = ',';
    how.has_quotes = has_quotes;
    return how;
}
