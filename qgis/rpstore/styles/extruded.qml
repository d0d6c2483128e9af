<!DOCTYPE qgis PUBLIC 'http://mrcc.com/qgis.dtd' 'SYSTEM'>
<qgis version="3.22.0" styleCategories="Symbology|Symbology3D|Labeling" labelsEnabled="1">
  <renderer-3d type="vector">
    <vector-layer-3d-tiling show-bounding-boxes="0" zoom-levels-count="3"/>
    <symbol material_type="phong" type="polygon">
      <data alt-clamping="absolute" extrusion-height="0" height="0" culling-mode="no-culling" alt-binding="centroid" invert-normals="0" add-back-faces="0" rendered-facade="3"/>
      <material ambient="64,64,64,255" diffuse="143,179,217,255" specular="32,32,32,255" shininess="0">
        <data-defined-properties>
          <Option type="Map">
            <Option value="" type="QString" name="name"/>
            <Option type="Map" name="properties">
              <Option type="Map" name="diffuse">
                <Option value="true" type="bool" name="active"/>
                <Option value="__COLOUR__" type="QString" name="expression"/>
                <Option value="3" type="int" name="type"/>
              </Option>
            </Option>
            <Option value="collection" type="QString" name="type"/>
          </Option>
        </data-defined-properties>
      </material>
      <data-defined-properties>
        <Option type="Map">
          <Option value="" type="QString" name="name"/>
          <Option type="Map" name="properties">
            <Option type="Map" name="extrusionHeight">
              <Option value="true" type="bool" name="active"/>
              <Option value="try(&quot;height&quot; - &quot;base&quot;, 0)" type="QString" name="expression"/>
              <Option value="3" type="int" name="type"/>
            </Option>
            <Option type="Map" name="height">
              <Option value="true" type="bool" name="active"/>
              <Option value="try(&quot;base&quot;, &quot;height&quot;)" type="QString" name="expression"/>
              <Option value="3" type="int" name="type"/>
            </Option>
          </Option>
          <Option value="collection" type="QString" name="type"/>
        </Option>
      </data-defined-properties>
      <edges enabled="1" width="1" color="60,60,60,255"/>
    </symbol>
  </renderer-3d>
  <renderer-v2 type="singleSymbol" enableorderby="1" symbollevels="0" forceraster="0" referencescale="-1">
    <symbols>
      <symbol type="fill" alpha="0.75" name="0" force_rhr="0" clip_to_extent="1">
        <layer enabled="1" pass="0" class="SimpleFill" locked="0">
          <Option type="Map">
            <Option value="143,179,217,255" type="QString" name="color"/>
            <Option value="bevel" type="QString" name="joinstyle"/>
            <Option value="60,60,60,255" type="QString" name="outline_color"/>
            <Option value="solid" type="QString" name="outline_style"/>
            <Option value="0.2" type="QString" name="outline_width"/>
            <Option value="MM" type="QString" name="outline_width_unit"/>
            <Option value="solid" type="QString" name="style"/>
          </Option>
          <data_defined_properties>
            <Option type="Map">
              <Option value="" type="QString" name="name"/>
              <Option type="Map" name="properties">
                <Option type="Map" name="fillColor">
                  <Option value="true" type="bool" name="active"/>
                  <Option value="__COLOUR__" type="QString" name="expression"/>
                  <Option value="3" type="int" name="type"/>
                </Option>
              </Option>
              <Option value="collection" type="QString" name="type"/>
            </Option>
          </data_defined_properties>
        </layer>
      </symbol>
    </symbols>
    <rotation/>
    <sizescale/>
    <orderby>
      <orderByClause asc="1" nullsFirst="1">"height"</orderByClause>
    </orderby>
  </renderer-v2>
  <labeling type="simple">
    <settings calloutType="simple">
      <text-style fieldName="id" isExpression="0" fontSize="8" fontSizeUnit="Point" textColor="30,30,30,255" textOpacity="1">
        <text-buffer bufferDraw="1" bufferSize="0.6" bufferSizeUnits="MM" bufferColor="255,255,255,255" bufferOpacity="0.7"/>
      </text-style>
      <placement placement="1" centroidInside="1" centroidWhole="1"/>
      <rendering drawLabels="1" obstacle="0" displayAll="0" fitInPolygonOnly="0"/>
    </settings>
  </labeling>
</qgis>
