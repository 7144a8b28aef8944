# stackcheck_firmware(TARGET [SPEC file] [MARGIN bytes | LIMIT bytes] [OPTIONS ..]): the build fails if the stack of TARGET may not fit.
# The target TARGET-stack makes the check alone. It is made again if the firmware or the spec has changed.
find_program(STACKCHECK stackcheck)

function(stackcheck_firmware target)
    cmake_parse_arguments(PARSE_ARGV 1 given "" "SPEC;MARGIN;LIMIT" "OPTIONS")
    if(given_UNPARSED_ARGUMENTS)
        message(FATAL_ERROR "stackcheck_firmware: unknown words ${given_UNPARSED_ARGUMENTS}")
    endif()
    if(NOT STACKCHECK)
        message(FATAL_ERROR "stackcheck_firmware: stackcheck is not on the path")
    endif()
    set(words $<TARGET_FILE:${target}>)
    set(spec)
    if(given_SPEC)
        get_filename_component(spec "${given_SPEC}" ABSOLUTE BASE_DIR "${CMAKE_CURRENT_SOURCE_DIR}")
        list(APPEND words --spec "${spec}")
    endif()
    foreach(limit MARGIN LIMIT)
        if(DEFINED given_${limit})
            string(TOLOWER ${limit} option)
            list(APPEND words --${option} "${given_${limit}}")
        endif()
    endforeach()
    target_link_options(${target} PRIVATE -Wl,--emit-relocs)
    set(stamp "${CMAKE_CURRENT_BINARY_DIR}/${target}.stack")
    add_custom_command(
        OUTPUT "${stamp}"
        COMMAND "${STACKCHECK}" ${words} ${given_OPTIONS}
        COMMAND "${CMAKE_COMMAND}" -E touch "${stamp}"
        DEPENDS ${target} ${spec}
        WORKING_DIRECTORY "${CMAKE_SOURCE_DIR}"
        COMMENT "Checking the stack of ${target}"
        VERBATIM)
    add_custom_target(${target}-stack ALL DEPENDS "${stamp}")
endfunction()
