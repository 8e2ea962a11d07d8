# find_package(perdoaze): the targets perdoaze::perdoaze, which is the shared object, and perdoaze::static, which is the archive.
get_filename_component(perdoaze_prefix "${CMAKE_CURRENT_LIST_DIR}/../../.." ABSOLUTE)

if(NOT TARGET perdoaze::perdoaze)
  add_library(perdoaze::perdoaze SHARED IMPORTED)
  set_target_properties(perdoaze::perdoaze PROPERTIES
    IMPORTED_LOCATION "${perdoaze_prefix}/lib/libperdoaze.so.1"
    IMPORTED_SONAME "libperdoaze.so.1"
    INTERFACE_INCLUDE_DIRECTORIES "${perdoaze_prefix}/include")
  add_library(perdoaze::static STATIC IMPORTED)
  set_target_properties(perdoaze::static PROPERTIES
    IMPORTED_LOCATION "${perdoaze_prefix}/lib/libperdoaze.a"
    INTERFACE_INCLUDE_DIRECTORIES "${perdoaze_prefix}/include")
endif()
