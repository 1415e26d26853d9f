# find_package(xxHash) defines the targets xxHash::xxhash, the shared library, and xxHash::xxhash_static. They are below
# the folder three above this file, wherever that was moved. Where only the static library was built, both are that.
get_filename_component(_xxHash_prefix "${CMAKE_CURRENT_LIST_DIR}/../../.." ABSOLUTE)

if(NOT TARGET xxHash::xxhash)
  add_library(xxHash::xxhash_static STATIC IMPORTED)
  set_target_properties(xxHash::xxhash_static PROPERTIES
    IMPORTED_LOCATION "${_xxHash_prefix}/lib/libxxhash.a"
    INTERFACE_INCLUDE_DIRECTORIES "${_xxHash_prefix}/include")
  if(EXISTS "${_xxHash_prefix}/lib/libxxhash.so.0")
    add_library(xxHash::xxhash SHARED IMPORTED)
    set_target_properties(xxHash::xxhash PROPERTIES
      IMPORTED_LOCATION "${_xxHash_prefix}/lib/libxxhash.so.0"
      IMPORTED_SONAME libxxhash.so.0
      INTERFACE_INCLUDE_DIRECTORIES "${_xxHash_prefix}/include")
  else()
    add_library(xxHash::xxhash INTERFACE IMPORTED)
    set_target_properties(xxHash::xxhash PROPERTIES INTERFACE_LINK_LIBRARIES xxHash::xxhash_static)
  endif()
endif()

unset(_xxHash_prefix)
