#version 450
// The surface of a landscape: terrain, water, snow, fog and a sun with shadows.

layout(location = 0) in vec3 worldPosition;
layout(location = 1) in vec3 worldNormal;
layout(location = 2) in vec2 mapPosition;
layout(location = 3) in float wetness;

layout(location = 0) out vec4 shaded;

layout(binding = 0) uniform sampler2D grassMap;
layout(binding = 1) uniform sampler2D rockMap;
layout(binding = 2) uniform sampler2D snowMap;
layout(binding = 3) uniform sampler2D normalMap;
layout(binding = 4) uniform sampler2DShadow shadowMap;
layout(binding = 5) uniform samplerCube skyMap;

layout(std140, binding = 6) uniform Camera {
    mat4 view;
    mat4 projection;
    vec3 eye;
    float near;
    float far;
} camera;

layout(std140, binding = 7) uniform Sun {
    vec3 direction;
    float strength;
    vec3 colour;
    float size;
    mat4 toShadow[3];
    vec4 splits;
} sun;

layout(std140, binding = 8) uniform Weather {
    vec3 fogColour;
    float fogDensity;
    float fogHeight;
    float snowLine;
    float rain;
    float time;
} weather;

struct Lamp {
    vec3 position;
    vec3 colour;
    float reach;
};

layout(std430, binding = 9) readonly buffer Lamps {
    int count;
    Lamp lamps[];
};

struct Surface {
    vec3 albedo;
    vec3 normal;
    float roughness;
    float metal;
    float shade;
};

struct Light {
    vec3 diffuse;
    vec3 specular;
};

const float PI = 3.14159265;
const int OCTAVES = 5;
const vec2 TAPS[8] = vec2[8](
    vec2(-0.94, -0.40), vec2(0.94, -0.77), vec2(-0.09, -0.93), vec2(0.34, 0.29),
    vec2(-0.92, 0.46), vec2(-0.81, -0.88), vec2(-0.38, 0.28), vec2(0.97, 0.76)
);

float saturated(float value)
{
    return clamp(value, 0.0, 1.0);
}

float hash(vec2 at)
{
    vec3 folded = fract(vec3(at.xyx) * 0.1031);
    folded += dot(folded, folded.yzx + 33.33);
    return fract((folded.x + folded.y) * folded.z);
}

float noise(vec2 at)
{
    vec2 cell = floor(at);
    vec2 inside = fract(at);
    vec2 curve = inside * inside * (3.0 - 2.0 * inside);
    float low = mix(hash(cell), hash(cell + vec2(1.0, 0.0)), curve.x);
    float high = mix(hash(cell + vec2(0.0, 1.0)), hash(cell + vec2(1.0, 1.0)), curve.x);
    return mix(low, high, curve.y);
}

float layered(vec2 at)
{
    float sum = 0.0;
    float weight = 0.5;
    for (int octave = 0; octave < OCTAVES; octave++) {
        sum += weight * noise(at);
        at = at * 2.03 + vec2(17.0, 9.2);
        weight *= 0.5;
    }
    return sum;
}

vec3 toLinear(vec3 colour)
{
    return pow(colour, vec3(2.2));
}

vec3 toDisplay(vec3 colour)
{
    vec3 mapped = colour * (2.51 * colour + 0.03) / (colour * (2.43 * colour + 0.59) + 0.14);
    return pow(clamp(mapped, 0.0, 1.0), vec3(1.0 / 2.2));
}

mat3 tangentFrame(vec3 normal)
{
    vec3 across = dFdx(worldPosition);
    vec3 along = dFdy(worldPosition);
    vec2 acrossMap = dFdx(mapPosition);
    vec2 alongMap = dFdy(mapPosition);
    vec3 tangent = normalize(across * alongMap.y - along * acrossMap.y);
    return mat3(tangent, cross(normal, tangent), normal);
}

vec3 detailNormal(float strength)
{
    vec3 bump = texture(normalMap, mapPosition * 24.0).xyz * 2.0 - 1.0;
    bump.xy *= strength;
    return normalize(tangentFrame(normalize(worldNormal)) * bump);
}

float steepness(vec3 normal)
{
    return 1.0 - saturated(normal.y);
}

float snowAmount(vec3 normal)
{
    float line = weather.snowLine + 40.0 * (layered(mapPosition * 6.0) - 0.5);
    float high = smoothstep(line - 15.0, line + 15.0, worldPosition.y);
    return high * smoothstep(0.6, 0.3, steepness(normal));
}

Surface landSurface()
{
    Surface surface;
    surface.normal = detailNormal(0.7);
    float rocky = smoothstep(0.25, 0.5, steepness(surface.normal));
    vec3 grass = toLinear(texture(grassMap, mapPosition * 32.0).rgb);
    vec3 rock = toLinear(texture(rockMap, mapPosition * 12.0).rgb);
    surface.albedo = mix(grass, rock, rocky);
    surface.albedo *= 0.8 + 0.4 * layered(mapPosition * 3.0);
    surface.roughness = mix(0.9, 0.7, rocky);
    surface.metal = 0.0;
    surface.shade = 1.0;
    return surface;
}

void addSnow(inout Surface surface)
{
    float amount = snowAmount(surface.normal);
    if (amount <= 0.0)
        return;
    vec3 snow = toLinear(texture(snowMap, mapPosition * 20.0).rgb);
    surface.albedo = mix(surface.albedo, snow, amount);
    surface.normal = normalize(mix(surface.normal, worldNormal, amount * 0.8));
    surface.roughness = mix(surface.roughness, 0.6, amount);
}

void addRain(inout Surface surface)
{
    float wet = saturated(wetness + weather.rain * (1.0 - steepness(surface.normal)));
    surface.albedo *= mix(1.0, 0.6, wet);
    surface.roughness = mix(surface.roughness, 0.15, wet);
    if (wet > 0.8) {
        vec2 ripple = vec2(noise(mapPosition * 900.0 + weather.time), noise(mapPosition * 900.0 - weather.time));
        surface.normal = normalize(surface.normal + vec3(ripple.x - 0.5, 0.0, ripple.y - 0.5) * 0.1 * wet);
    }
}

int shadowSlice(float depth)
{
    int slice = 0;
    while (slice < 2 && depth > sun.splits[slice])
        slice++;
    return slice;
}

float shadowAt(int slice, float bias)
{
    vec4 projected = sun.toShadow[slice] * vec4(worldPosition, 1.0);
    vec3 at = projected.xyz / projected.w * 0.5 + 0.5;
    if (at.z > 1.0)
        return 1.0;
    float lit = 0.0;
    float turn = hash(gl_FragCoord.xy) * 2.0 * PI;
    mat2 rotation = mat2(cos(turn), sin(turn), -sin(turn), cos(turn));
    for (int tap = 0; tap < TAPS.length(); ++tap) {
        vec2 offset = rotation * TAPS[tap] / 2048.0;
        lit += texture(shadowMap, vec3(at.xy + offset, at.z - bias));
    }
    return lit / float(TAPS.length());
}

float sunShadow(vec3 normal)
{
    float depth = -(camera.view * vec4(worldPosition, 1.0)).z;
    int slice = shadowSlice(depth);
    float slope = 1.0 - saturated(dot(normal, sun.direction));
    float bias;
    switch (slice) {
    case 0:
        bias = 0.0004;
        break;
    case 1:
        bias = 0.0010;
        break;
    default:
        bias = 0.0030;
        break;
    }
    return shadowAt(slice, bias * (1.0 + 4.0 * slope));
}

float spread(float cosine, float roughness)
{
    float alpha = roughness * roughness;
    float below = cosine * cosine * (alpha * alpha - 1.0) + 1.0;
    return alpha * alpha / (PI * below * below);
}

float masking(float cosine, float roughness)
{
    float k = (roughness + 1.0) * (roughness + 1.0) / 8.0;
    return cosine / (cosine * (1.0 - k) + k);
}

vec3 reflectance(float cosine, vec3 base)
{
    return base + (1.0 - base) * pow(1.0 - cosine, 5.0);
}

Light lightFrom(Surface surface, vec3 toEye, vec3 toLight, vec3 colour)
{
    vec3 halfway = normalize(toEye + toLight);
    float facing = max(dot(surface.normal, toLight), 0.0);
    float seen = max(dot(surface.normal, toEye), 0.001);
    vec3 base = mix(vec3(0.04), surface.albedo, surface.metal);
    vec3 mirrored = reflectance(max(dot(halfway, toEye), 0.0), base);
    float glossy = spread(max(dot(surface.normal, halfway), 0.0), surface.roughness);
    glossy *= masking(facing, surface.roughness) * masking(seen, surface.roughness);
    Light light;
    light.diffuse = (1.0 - mirrored) * (1.0 - surface.metal) * surface.albedo / PI * colour * facing;
    light.specular = mirrored * glossy / (4.0 * seen * max(facing, 0.001)) * colour * facing;
    return light;
}

vec3 lampLight(Surface surface, vec3 toEye)
{
    vec3 sum = vec3(0.0);
    for (int number = 0; number < count; number++) {
        Lamp lamp = lamps[number];
        vec3 way = lamp.position - worldPosition;
        float distance2 = dot(way, way);
        if (distance2 > lamp.reach * lamp.reach)
            continue;
        float fade = 1.0 - distance2 / (lamp.reach * lamp.reach);
        Light light = lightFrom(surface, toEye, normalize(way), lamp.colour * fade * fade);
        sum += light.diffuse + light.specular;
    }
    return sum;
}

vec3 skyLight(Surface surface, vec3 toEye)
{
    vec3 mirror = reflect(-toEye, surface.normal);
    float level = surface.roughness * 7.0;
    vec3 around = textureLod(skyMap, surface.normal, 7.0).rgb;
    vec3 ahead = textureLod(skyMap, mirror, level).rgb;
    vec3 base = mix(vec3(0.04), surface.albedo, surface.metal);
    vec3 mirrored = reflectance(max(dot(surface.normal, toEye), 0.0), base);
    return surface.shade * (around * surface.albedo * (1.0 - mirrored) + ahead * mirrored);
}

float fogAmount(vec3 from, vec3 to)
{
    vec3 way = to - from;
    float travelled = length(way);
    float fall = max(abs(way.y), 0.01) / weather.fogHeight;
    float thick = weather.fogDensity * exp(-from.y / weather.fogHeight) * (1.0 - exp(-fall)) / fall;
    return 1.0 - exp(-thick * travelled);
}

vec4 withFog(vec3 colour)
{
    float amount = fogAmount(camera.eye, worldPosition);
    vec3 toSun = sun.direction * sun.strength;
    float glow = pow(max(dot(normalize(worldPosition - camera.eye), toSun), 0.0), 8.0);
    vec3 fog = mix(weather.fogColour, sun.colour, glow * 0.5);
    vec4 faded = mix(colour, fog, amount);
    return faded;
}

void main()
{
    vec3 toEye = normalize(camera.eye - worldPosition);
    Surface surface = landSurface();
    addSnow(surface);
    addRain(surface);
    surface.shade = 0.6 + 0.4 * layered(mapPosition * 40.0);
    Light light = lightFrom(surface, toEye, sun.direction, sun.colour * sun.strength);
    float shadow = sunShadow(surface.normal);
    vec3 colour = (light.diffuse + light.specular) * shadow;
    colour += lampLight(surface, toEye);
    colour += skyLight(surface, toEye);
    if (any(isnan(colour)))
        discard;
    shaded = withFog(toDisplay(colour));
}
