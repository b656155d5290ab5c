#!/usr/bin/env python3
"""cube_over_binding.py CUBE.C: prints Khronos' cube.c (of Vulkan-Tools 1.3.239) with memory of the binding's, by the calls of
tests_c/cube_memory.h. Each place that is replaced has to be there as often as is said; where it isn't, the status is 1.
"""
import re
import sys

SEEN = "VK_MEMORY_PROPERTY_HOST_VISIBLE_BIT"
OWN = "VK_MEMORY_PROPERTY_DEVICE_LOCAL_BIT"
# from the call that asks what a resource needs to the one that binds it
BOUND = r" *vkGet{}MemoryRequirements\(.*?vkBind{}Memory\([^;]*;\n *assert\(!err\);\n"


def of_uniforms(found):
    """Uniforms are mapped and written before they are bound: that stays."""
    written = re.search(r" *memcpy\((\S+)_ptr,[^;]*;\n", found[0])
    return f"        {written[1]}_ptr = cube_mapped(&{written[1]});\n{written[0]}" if written else ""


def replacements():
    """What is sought, what stands in its place, how often."""
    yield r'#include <vulkan/vulkan\.h>\n', '#include <vulkan/vulkan.h>\n#include "cube_memory.h"\n', 1
    yield r" *VkMemoryAllocateInfo mem_alloc;\n( *)VkDeviceMemory mem;\n", r"\1pilhangko_vulkan_allocation mem;\n", 2
    yield r"VkDeviceMemory uniform_memory;", "pilhangko_vulkan_allocation uniform_memory;", 1
    yield (r"vkCreateImage\(demo->device, &image, NULL, &demo->depth\.image\);",
           f"cube_image(&image, {OWN}, &demo->depth.image, &demo->depth.mem);", 1)
    yield (r"vkCreateImage\(demo->device, &image_create_info, NULL, &tex_obj->image\);",
           "cube_image(&image_create_info, required_props, &tex_obj->image, &tex_obj->mem);", 1)
    yield (r"vkCreateBuffer\(demo->device, &buffer_create_info, NULL, &tex_obj->buffer\);",
           f"cube_buffer(&buffer_create_info, {SEEN}, &tex_obj->buffer, &tex_obj->mem);", 1)
    yield (r"vkCreateBuffer\(demo->device, &buf_info, NULL, &(demo->swapchain_image_resources\[i\])\.uniform_buffer\);",
           rf"cube_buffer(&buf_info, {SEEN}, &\1.uniform_buffer, &\1.uniform_memory);", 1)
    yield BOUND.format("Buffer", "Buffer"), of_uniforms, 2
    yield BOUND.format("Image", "Image"), "", 2
    yield (r"err = vkMapMemory\(demo->device, tex_obj->mem, 0, tex_obj->mem_alloc\.allocationSize, 0, &data\);",
           "data = cube_mapped(&tex_obj->mem);", 2)
    yield r" *vkUnmapMemory\([^;]*;\n", "", 4
    yield r" *vkFreeMemory\([^;]*;\n", "", 7
    yield r"vkDestroyImage\(demo->device, ([\w>.\[\]-]+)image, NULL\)", r"cube_destroy_image(\1image, &\1mem)", 5
    yield r"vkDestroyBuffer\(demo->device, tex_objs->buffer, NULL\)", "cube_destroy_buffer(tex_objs->buffer, &tex_objs->mem)", 1
    yield (r"vkDestroyBuffer\(demo->device, ([\w>.\[\]-]+)uniform_buffer, NULL\)",
           r"cube_destroy_buffer(\1uniform_buffer, &\1uniform_memory)", 2)
    yield r"( *)demo_create_device\(demo\);\n", r"\g<0>\1cube_begin(demo->inst, demo->gpu, demo->device);\n", 1
    yield r"( *)vkDestroyDevice\(demo->device, NULL\);\n", r"\1cube_end();\n\g<0>", 1


def main(path):
    with open(path, encoding="utf-8") as file:
        text = file.read()
    for sought, replacement, count in replacements():
        text, found = re.subn(sought, replacement, text, flags=re.S)
        if found != count:
            sys.exit(f"cube_over_binding.py: {found} places in {path}, and not {count}, look like: {sought}")
    sys.stdout.write(text)


if __name__ == "__main__":
    main(sys.argv[1])
