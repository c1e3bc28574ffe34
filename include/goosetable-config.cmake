# The library as a target: find_package(goosetable 0.2 CONFIG), then link with goosetable::goosetable.
get_filename_component(goosetable_prefix "${CMAKE_CURRENT_LIST_DIR}/../../.." ABSOLUTE)
if(NOT TARGET goosetable::goosetable)
    add_library(goosetable::goosetable STATIC IMPORTED)
    set_target_properties(goosetable::goosetable PROPERTIES
        IMPORTED_LOCATION "${goosetable_prefix}/lib/libgoosetable.a"
        IMPORTED_LINK_INTERFACE_LANGUAGES C
        INTERFACE_INCLUDE_DIRECTORIES "${goosetable_prefix}/include")
endif()
unset(goosetable_prefix)
