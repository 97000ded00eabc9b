#version 450
 uniform Sun {
vec3 colour;
} ;
vec4 faded = colour ;
