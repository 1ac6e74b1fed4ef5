// The report on refining with creases.
#pragma once

// Whether every bar is met.
bool print_creases();
