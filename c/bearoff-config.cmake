# The library bearoff for CMake, wherever it lies: find_package(bearoff 1) defines the targets
# bearoff::bearoff, the shared library, and bearoff::archive, the static one.
get_filename_component(_bearoff_lib "${CMAKE_CURRENT_LIST_DIR}/../.." ABSOLUTE)
set(_bearoff_include "${_bearoff_lib}/../include")
if(NOT EXISTS "${_bearoff_include}/bearoff.h")
    # the libraries lie in a folder of the machine's kind
    set(_bearoff_include "${_bearoff_lib}/../../include")
endif()
get_filename_component(_bearoff_include "${_bearoff_include}" ABSOLUTE)
if(NOT TARGET bearoff::bearoff)
    add_library(bearoff::bearoff SHARED IMPORTED)
    set_target_properties(bearoff::bearoff PROPERTIES
        IMPORTED_LOCATION "${_bearoff_lib}/libbearoff.so.1"
        IMPORTED_SONAME libbearoff.so.1
        INTERFACE_INCLUDE_DIRECTORIES "${_bearoff_include}")
    add_library(bearoff::archive STATIC IMPORTED)
    set_target_properties(bearoff::archive PROPERTIES
        IMPORTED_LOCATION "${_bearoff_lib}/libbearoff.a"
        INTERFACE_INCLUDE_DIRECTORIES "${_bearoff_include}")
endif()
unset(_bearoff_lib)
unset(_bearoff_include)
