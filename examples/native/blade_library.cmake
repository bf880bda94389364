# blade_add_library(NAME SOURCE.. [OPTIONS OPTION..]): a library of C sources, hardened and compiled by blade-cc. Programs that
# link it include NAME.h; the build fails if the verdict is no. Licence: public domain (CC0).
find_program(BLADE_CC blade-cc HINTS ${CMAKE_CURRENT_LIST_DIR}/../../companions REQUIRED)
function(blade_add_library name)
    cmake_parse_arguments(PARSE_ARGV 1 asked "" "" "OPTIONS")
    set(folder ${CMAKE_CURRENT_BINARY_DIR}/${name}.blade)
    set(sources ${asked_UNPARSED_ARGUMENTS})
    list(TRANSFORM sources PREPEND ${CMAKE_CURRENT_SOURCE_DIR}/)
    add_custom_command(
        OUTPUT ${folder}/native/${name}.o ${folder}/native/${name}.h
        COMMAND ${BLADE_CC} ${sources} --name ${name} --native -o ${folder}/ ${asked_OPTIONS}
        DEPENDS ${sources} VERBATIM)
    add_library(${name} STATIC ${folder}/native/${name}.o ${folder}/native/${name}.h)
    set_target_properties(${name} PROPERTIES LINKER_LANGUAGE C)
    set_source_files_properties(${folder}/native/${name}.o PROPERTIES EXTERNAL_OBJECT TRUE GENERATED TRUE)
    target_include_directories(${name} PUBLIC ${folder}/native)
    find_package(Threads REQUIRED)
    target_link_libraries(${name} PUBLIC Threads::Threads)
endfunction()
