# The library as two targets: hurzelma::hurzelma is the shared one, hurzelma::static the static one.
if(NOT TARGET hurzelma::hurzelma)
    get_filename_component(hurzelma_prefix "${CMAKE_CURRENT_LIST_DIR}/../../.." ABSOLUTE)
    add_library(hurzelma::hurzelma SHARED IMPORTED)
    set_target_properties(hurzelma::hurzelma PROPERTIES
        IMPORTED_LOCATION "${hurzelma_prefix}/lib/libhurzelma.so"
        INTERFACE_INCLUDE_DIRECTORIES "${hurzelma_prefix}/include")
    add_library(hurzelma::static STATIC IMPORTED)
    set_target_properties(hurzelma::static PROPERTIES
        IMPORTED_LOCATION "${hurzelma_prefix}/lib/libhurzelma.a"
        INTERFACE_INCLUDE_DIRECTORIES "${hurzelma_prefix}/include")
    unset(hurzelma_prefix)
endif()
